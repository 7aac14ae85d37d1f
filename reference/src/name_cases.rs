//! The worked cases of name bytes (document 02, §3), `n3_root` and on: a base whose children, and those of foreign nodes
//! and of user defined data, have names that differ early, late or nowhere.

use crate::build::{Image, Node};
use crate::text::{padded, Text};

/// A name of 32 bytes.
const FULL: &str = "ABCDEFGHIJKLMNOPQRSTUVWXYZabcdef";

/// The base of all cases but the first, node 1.
const BASE: usize = 1;

/// A root and a base, which has no siblings.
fn base() -> Image {
    let mut image = Image::with_root("HDF5 MotherNode", "Root Node of HDF5 File");
    image.add(0, Node::integers("Base", "CGNSBase_t", 4, &[2], &[3, 3]));
    image
}

/// A node that has this name, all 32 bytes of it.
fn named(name: Text, label: &str) -> Node {
    Node { name, ..Node::empty("", label) }
}

/// Adds empty nodes of these names under a parent.
fn add(image: &mut Image, parent: usize, label: &str, names: &[&str]) {
    for name in names {
        image.add(parent, Node::empty(name, label));
    }
}

/// A base with user defined data of these names, from node 2 on.
fn family(names: &[&str]) -> Image {
    let mut image = base();
    add(&mut image, BASE, "UserDefinedData_t", names);
    image
}

/// A base with nodes of an unknown label of these names, from node 2 on.
fn foreign_family(names: impl IntoIterator<Item = Text>) -> Image {
    let mut image = base();
    for name in names {
        image.add(BASE, named(name, "Family_t"));
    }
    image
}

/// A root alone, with a name of 32 bytes.
fn root() -> Image {
    Image::with_root(FULL, "Root Node of HDF5 File")
}

/// Nodes one below the other, all of one name.
fn chain() -> Image {
    let mut image = base();
    image.nodes[BASE].name = image.nodes[0].name;
    for (k, label) in ["UserDefinedData_t", "Zone_t", "Family_t"].into_iter().enumerate() {
        image.add(BASE + k, named(image.nodes[0].name, label));
    }
    image
}

/// A name of 32 bytes, and for each of its bytes one that differs from it in that byte alone.
fn ladder() -> Image {
    let stem = padded(FULL.as_bytes());
    let other = |k: usize| {
        let mut name = stem;
        name[k] = b'~';
        name
    };
    foreign_family((0..stem.len()).map(other).chain([stem]))
}

/// The first byte of a name, the first two, and so on to all 32.
fn prefixes() -> Image {
    foreign_family((1..=FULL.len()).map(|length| padded(&FULL.as_bytes()[..length])))
}

/// Siblings below an unknown label, node 2, and below user defined data, node 3.
fn skipped() -> Image {
    let mut image = base();
    let foreign = image.add(BASE, Node::empty("Foreign", "Family_t"));
    let user = image.add(BASE, Node::empty("User", "UserDefinedData_t"));
    add(&mut image, foreign, "Zone_t", &["Zone1", "Zone2"]);
    add(&mut image, user, "Family_t", &["Wall12", "Wall1", "Inlet"]);
    image
}

/// Siblings with known and with unknown labels.
fn mixed() -> Image {
    let mut image = base();
    for (name, label) in [("NameA", "UserDefinedData_t"), ("NameB", "Family_t"), ("NameC", "GridCoordinates")] {
        image.add(BASE, Node::empty(name, label));
    }
    image
}

/// Two bases whose children have the same names and come in turn.
fn cousins() -> Image {
    let mut image = base();
    let second = image.add(0, Node::integers("Base2", "CGNSBase_t", 4, &[2], &[3, 3]));
    for name in ["X1", "X2", "X3"] {
        image.add(BASE, Node::empty(name, "UserDefinedData_t"));
        image.add(second, Node::empty(name, "UserDefinedData_t"));
    }
    image
}

/// A base with so many zones, named as exporters do; they have their types, or none.
fn zones(count: usize, with_types: bool) -> Image {
    let mut image = base();
    for k in 1..=count {
        let zone = image.add(BASE, Node::integers(&format!("Zone{k}"), "Zone_t", 4, &[1, 3], &[8, 1, 0]));
        if with_types {
            image.add(zone, Node::text("ZoneType", "ZoneType_t", "Unstructured"));
        }
    }
    image
}

/// Twenty siblings, of which the last has the name of the first.
fn far_twin() -> Image {
    let names = (0..20).map(|k| padded(format!("Wall {}", k % 19).as_bytes()));
    foreign_family(names)
}

/// Two nodes of one name below an unknown label, the later of another label and with data.
fn skipped_twin() -> Image {
    let mut image = skipped();
    image.add(2, Node::text("Zone1", "Descriptor_t", "x"));
    image
}

/// The cases, each with its name.
pub fn name_cases() -> Vec<(&'static str, Vec<u8>)> {
    let images = [
        ("n3_root", root()),
        ("n3_chain", chain()),
        ("n3_first_byte", family(&["alike", "Alike"])),
        ("n3_last_byte", family(&["ABCDEFGHIJKLMNOPQRSTUVWXYZabcde~", FULL])),
        ("n3_padding", family(&["Wall1", "Wall10"])),
        ("n3_blanks", family(&["a", "a  b", "a b"])),
        ("n3_ladder", ladder()),
        ("n3_prefixes", prefixes()),
        ("n3_skipped", skipped()),
        ("n3_mixed", mixed()),
        ("n3_cousins", cousins()),
        ("n3_zones", zones(12, true)),
        ("n3_no_types", zones(3, false)),
        ("n3_twin", family(&["Wall", "Inlet", "Wall"])),
        ("n3_twins", family(&["Wall", "Inlet", "Outlet", "Inlet", "Wall", "Wall"])),
        ("n3_far_twin", far_twin()),
        ("n3_skipped_twin", skipped_twin()),
    ];
    images.map(|(name, image)| (name, image.to_bytes())).into()
}
