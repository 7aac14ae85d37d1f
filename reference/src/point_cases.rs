//! The worked cases of points (document 02, §1), `p1_wall` and on: a structured zone of 4×3×2 vertices, or an
//! unstructured one of 8, with a flow solution.

use crate::build::{Image, Node};
use crate::cases::beginning;

/// The wall of a structured zone: 4 × 3 × 1 points, where the last direction begins.
const WALL: [[i64; 2]; 3] = [[1, 4], [1, 3], [1, 1]];

/// Lengths whose product is 2^64 + 4, as ranges from 1.
const BEYOND_64_BITS: [[i64; 2]; 3] = [[1, 769_546], [1, 494_770], [1, 48_448_661]];

/// A structured zone of 4×3×2 vertices, node 3, and a flow solution, node 5, with these children.
fn structured(children: &[Node]) -> Image {
    let sizes = [4, 3, 2, 3, 2, 1, 0, 0, 0];
    with_flow(Node::integers("Zone1", "Zone_t", 4, &[3, 3], &sizes), "Structured", children)
}

/// An unstructured zone of 8 vertices, node 3, and a flow solution, node 5, with these children.
fn unstructured(children: &[Node]) -> Image {
    with_flow(Node::integers("Zone1", "Zone_t", 4, &[1, 3], &[8, 1, 0]), "Unstructured", children)
}

/// A zone with its type and a flow solution with these children, from node 6 on.
fn with_flow(zone: Node, zone_type: &str, children: &[Node]) -> Image {
    let mut image = beginning();
    let base = image.add(0, Node::integers("Base", "CGNSBase_t", 4, &[2], &[3, 3]));
    let zone = image.add(base, zone);
    image.add(zone, Node::text("ZoneType", "ZoneType_t", zone_type));
    let flow = image.add(zone, Node::empty("Wall", "FlowSolution_t"));
    for child in children {
        image.add(flow, child.clone());
    }
    image
}

/// A flow array of these dimensions.
fn pressure(dimensions: &[u64]) -> Node {
    let mut array = Node::new("Pressure", "DataArray_t", "R4", &[], Vec::new());
    array.reshape(dimensions);
    array
}

/// A list of five points of an unstructured zone.
fn five_points() -> Node {
    Node::point_list(4, 1, &[1, 2, 5, 7, 8])
}

/// A list of one point of a structured zone.
fn one_point() -> Node {
    Node::point_list(4, 3, &[1, 1, 1])
}

/// A list of points in a structured zone itself, node 6.
fn list_in_zone() -> Image {
    let mut image = structured(&[]);
    image.add(3, one_point());
    image
}

/// A node under another name.
fn named(name: &str, node: Node) -> Node {
    Node { name: crate::text::padded(name.as_bytes()), ..node }
}

/// The cases, each with its name.
pub fn point_cases() -> Vec<(&'static str, Vec<u8>)> {
    let wall = || Node::point_range(4, &WALL);
    let above = Node::point_range(4, &[[5, 4], [1, 3], [1, 1]]);
    let least = Node::point_range(4, &[[-2_147_483_648, 4], [1, 3], [1, 1]]);
    let great = || Node::point_range(4, &BEYOND_64_BITS);
    let images = [
        ("p1_wall", structured(&[wall(), pressure(&[12])])),
        ("p1_above", structured(&[pressure(&[4, 3, 2]), above])),
        ("p1_least", structured(&[pressure(&[4, 3, 2]), least])),
        ("p1_both", structured(&[wall(), pressure(&[12]), one_point()])),
        ("p1_list", unstructured(&[five_points(), pressure(&[5])])),
        ("p1_zone_size", unstructured(&[five_points(), pressure(&[8])])),
        ("p1_in_zone", list_in_zone()),
        ("p1_range_name", structured(&[named("PointList", wall())])),
        ("p1_list_name", structured(&[named("PointRange", one_point())])),
        ("p1_product", structured(&[great(), pressure(&[4])])),
        ("p1_great", structured(&[great()])),
    ];
    images.map(|(name, image)| (name, image.to_bytes())).into()
}
