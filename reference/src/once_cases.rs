//! The worked cases of labels allowed once (document 02, §5), `o5_rind` and on: two children of such a label under one
//! parent, where document 01 had rule 22. They are refused by another rule, or not at all.

use crate::build::{Image, Node};
use crate::cases::beginning;
use crate::text::padded;

/// The zone of all cases.
const ZONE: usize = 3;

/// The version node, a base, an unstructured zone of 8 vertices, node 3, with these children, from node 4 on.
fn zone(children: &[Node]) -> Image {
    let mut image = beginning();
    let base = image.add(0, Node::integers("Base", "CGNSBase_t", 4, &[2], &[3, 3]));
    let zone = image.add(base, Node::integers("Zone1", "Zone_t", 4, &[1, 3], &[8, 1, 0]));
    add(&mut image, zone, children);
    image
}

/// The same zone with its type, node 4, and a node of a label, node 5, with these children, from node 6 on.
fn below(label: &str, children: &[Node]) -> Image {
    let mut image = zone(&[zone_type("ZoneType")]);
    let parent = image.add(ZONE, Node::empty("Parent", label));
    add(&mut image, parent, children);
    image
}

/// The same with a flow solution as node 5.
fn flow(children: &[Node]) -> Image {
    below("FlowSolution_t", children)
}

/// Adds nodes under a parent.
fn add(image: &mut Image, parent: usize, children: &[Node]) {
    for child in children {
        image.add(parent, child.clone());
    }
}

/// A ZoneType_t that says Unstructured.
fn zone_type(name: &str) -> Node {
    Node::text(name, "ZoneType_t", "Unstructured")
}

/// A Rind_t without planes.
fn rind(name: &str) -> Node {
    Node::integers(name, "Rind_t", 4, &[2], &[0, 0])
}

/// A Rind_t whose name ends in its last byte.
fn rind_to_the_end() -> Node {
    let mut name = padded(b"Rind");
    name[31] = b'.';
    Node { name, ..rind("") }
}

/// A GridLocation_t at vertices.
fn location(name: &str) -> Node {
    Node::text(name, "GridLocation_t", "Vertex")
}

/// A second version node, node 6, of this name.
fn version(name: &str) -> Image {
    let mut image = flow(&[]);
    let second = Node { name: padded(name.as_bytes()), ..image.nodes[1].clone() };
    add(&mut image, 0, &[second]);
    image
}

/// An image with nodes added in the zone.
fn with(mut image: Image, children: &[Node]) -> Image {
    add(&mut image, ZONE, children);
    image
}

/// Two flow solutions, nodes 5 and 7, each with a Rind_t.
fn two_flows() -> Image {
    let mut image = flow(&[rind("Rind")]);
    let second = image.add(ZONE, Node::empty("Flow2", "FlowSolution_t"));
    image.add(second, rind("Rind"));
    image
}

/// The cases, each with its name.
pub fn once_cases() -> Vec<(&'static str, Vec<u8>)> {
    let bad_rind = |name| Node::integers(name, "Rind_t", 4, &[2], &[0, -1]);
    let user = |children: &[Node]| below("UserDefinedData_t", children);
    let images = [
        ("o5_rind", flow(&[rind("Rind"), rind("Rind")])),
        ("o5_rind_name", flow(&[rind("Rind"), rind("Rind2")])),
        ("o5_rind_first", flow(&[rind("Rind2"), rind("Rind")])),
        ("o5_rind_alike", flow(&[rind("Rind2"), rind("Rind2")])),
        ("o5_rind_names", flow(&[rind("Rind2"), rind("Rind3")])),
        ("o5_rind_last_byte", flow(&[rind("Rind"), rind_to_the_end()])),
        ("o5_rind_bad", flow(&[rind("Rind"), bad_rind("Rind2")])),
        ("o5_rind_bad_first", flow(&[bad_rind("Rind"), rind("Rind2")])),
        ("o5_rind_apart", flow(&[rind("Rind"), location("GridLocation"), rind("Rind")])),
        ("o5_rind_other_label", flow(&[Node::empty("Rind", "UserDefinedData_t"), rind("Rind")])),
        ("o5_coordinates", below("GridCoordinates_t", &[rind("Rind"), rind("Rind")])),
        ("o5_coordinates_name", below("GridCoordinates_t", &[rind("Rind"), rind("Rind2")])),
        ("o5_location", flow(&[location("GridLocation"), location("GridLocation")])),
        ("o5_location_name", flow(&[location("GridLocation"), location("Location")])),
        ("o5_type", zone(&[zone_type("ZoneType"), zone_type("ZoneType")])),
        ("o5_type_name", zone(&[zone_type("ZoneType"), zone_type("Type")])),
        ("o5_type_first", zone(&[zone_type("Type"), zone_type("ZoneType")])),
        ("o5_type_names", zone(&[zone_type("Type"), zone_type("Type2")])),
        ("o5_version", version("CGNSLibraryVersion")),
        ("o5_version_name", version("Version")),
        ("o5_user", user(&[rind("Rind2"), rind("Rind3")])),
        ("o5_user_alike", user(&[rind("Rind2"), rind("Rind2")])),
        ("o5_unknown", below("Family_t", &[zone_type("ZoneType"), zone_type("Type")])),
        ("o5_two_flows", two_flows()),
        ("o5_zone", with(flow(&[]), &[rind("Rind"), rind("Rind")])),
        ("o5_zone_name", with(flow(&[]), &[rind("Rind"), rind("Rind2")])),
    ];
    images.map(|(name, image)| (name, image.to_bytes())).into()
}
