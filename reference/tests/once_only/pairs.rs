//! Two children of every label allowed once, under every parent and under names that are alike, or nearly, or not.

use reference::build::{Image, Node};
use reference::damage::Answer;
use reference::labels::LABELS;
use reference::text::{padded, Text};
use reference::validate;

use crate::{check_alike, insert, node_of, ONCE_ONLY};
use Children::{Held, Skipped};

/// What becomes of a child of a label allowed once: the parent holds these ones and no others (20); or all are skipped.
enum Children {
    Held(&'static [&'static str]),
    Skipped,
}

/// A tree with every known label: the parent, name and label of each node and what becomes of its children (document 01,
/// placing; document 02, §1).
const PARENTS: [(usize, &str, &str, Children); 33] = [
    (0, "HDF5 MotherNode", "Root Node of HDF5 File", Held(&["CGNSLibraryVersion_t"])),
    (0, "CGNSLibraryVersion", "CGNSLibraryVersion_t", Held(&[])),
    (0, "Base", "CGNSBase_t", Held(&[])),
    (0, "Foreign", "Family_t", Skipped),
    (2, "Remark", "Descriptor_t", Held(&[])),
    (2, "User", "UserDefinedData_t", Skipped),
    (5, "Zone", "Zone_t", Skipped),
    (5, "User", "UserDefinedData_t", Skipped),
    (2, "Foreign", "Family_t", Skipped),
    (8, "Flow", "FlowSolution_t", Skipped),
    (2, "Zone", "Zone_t", Held(&["ZoneType_t"])),
    (10, "ZoneType", "ZoneType_t", Held(&[])),
    (10, "Grid", "GridCoordinates_t", Held(&["Rind_t"])),
    (12, "Rind", "Rind_t", Held(&[])),
    (12, "CoordinateX", "DataArray_t", Held(&[])),
    (14, "Remark", "Descriptor_t", Held(&[])),
    (10, "Flow", "FlowSolution_t", Held(&["GridLocation_t", "Rind_t"])),
    (16, "GridLocation", "GridLocation_t", Held(&[])),
    (16, "Rind", "Rind_t", Held(&[])),
    (16, "PointRange", "IndexRange_t", Held(&[])),
    (16, "Density", "DataArray_t", Held(&[])),
    (16, "User", "UserDefinedData_t", Skipped),
    (10, "Probes", "FlowSolution_t", Held(&["GridLocation_t", "Rind_t"])),
    (22, "PointList", "IndexArray_t", Held(&[])),
    (10, "Section", "Elements_t", Held(&["Rind_t"])),
    (24, "ElementRange", "IndexRange_t", Held(&[])),
    (24, "ElementConnectivity", "DataArray_t", Held(&[])),
    (24, "Rind", "Rind_t", Held(&[])),
    (2, "Block", "Zone_t", Held(&["ZoneType_t"])),
    (28, "ZoneType", "ZoneType_t", Held(&[])),
    (28, "Grid", "GridCoordinates_t", Held(&["Rind_t"])),
    (30, "Rind", "Rind_t", Held(&[])),
    (28, "Foreign", "Family_t", Skipped),
];

/// The first node of the structured zone; all before are outside it.
const BLOCK: usize = 28;

/// The directions of the zone that a node stands in.
fn directions(node: usize) -> u64 {
    if node < BLOCK {
        1
    } else {
        3
    }
}

/// The tree as an image, which is accepted.
fn every_parent() -> Image {
    let mut image = Image::default();
    for (number, &(parent, name, label, _)) in PARENTS.iter().enumerate() {
        let node = match (label, name) {
            ("CGNSBase_t", _) => Node::integers(name, label, 4, &[2], &[3, 3]),
            ("Zone_t", "Zone") => Node::integers(name, label, 4, &[1, 3], &[4, 1, 0]),
            ("Zone_t", _) => Node::integers(name, label, 4, &[3, 3], &[2, 2, 2, 1, 1, 1, 0, 0, 0]),
            ("Descriptor_t", _) => Node::text(name, label, "text"),
            ("DataArray_t", "ElementConnectivity") => Node::list(name, 4, &[1, 2]),
            ("DataArray_t", "Density") => Node::new(name, label, "R4", &[3], vec![0; 12]),
            ("DataArray_t", _) => Node::new(name, label, "R4", &[4], vec![0; 16]),
            ("Elements_t", _) => Node::integers(name, label, 4, &[2], &[3, 0]),
            ("IndexRange_t", "PointRange") => Node::point_range(4, &[[1, 3]]),
            ("IndexRange_t", _) => Node::integers(name, label, 4, &[2], &[1, 1]),
            ("IndexArray_t", _) => Node::point_list(4, 1, &[1, 2]),
            _ if ONCE_ONLY.iter().any(|(_, once, _)| *once == label) => {
                node_of(label, padded(name.as_bytes()), directions(number))
            }
            _ => Node::empty(name, label),
        };
        image.add(parent, node);
    }
    image.nodes[0].parent = u32::MAX;
    image
}

/// Names for two children: the fixed one, others, and ones that differ from it or from another in one byte only: the
/// last of all, the first of the padding, the last before it.
fn names_for(fixed: &str) -> Vec<Text> {
    let with = |mut name: Text, place: usize, byte| {
        name[place] = byte;
        name
    };
    let (fixed, length) = (padded(fixed.as_bytes()), fixed.len());
    let full = [b'x'; 32];
    let near = [with(fixed, 31, b'.'), with(fixed, length, b'1'), with(fixed, length - 1, b' ')];
    [&[fixed, padded(b"Second"), full, with(full, 31, b'y'), with(full, 31, b' ')], &near[..]].concat()
}

/// A way to add two children to a parent; it answers their numbers.
type Layout = fn(&mut Image, usize, [Node; 2]) -> [usize; 2];

/// Where two children stand: next to each other behind all nodes; there with a foreign sibling between them, which has a
/// child like them; the first right behind the parent and the second behind all nodes.
const LAYOUTS: [Layout; 3] = [
    |image, parent, [first, second]| [image.add(parent, first), image.add(parent, second)],
    |image, parent, [first, second]| {
        let first = image.add(parent, first);
        let foreign = image.add(parent, Node::empty("Between", "Family_t"));
        image.add(foreign, second.clone());
        [first, image.add(parent, second)]
    },
    |image, parent, [first, second]| {
        insert(image, parent, parent + 1, first);
        [parent + 1, image.add(parent, second)]
    },
];

/// The answer on two children of a label under a parent, which has no others of it: 11 where the names are alike; nothing
/// where they are skipped; 20 at the first where the parent does not hold them; else the fixed name is missing at the first
/// or at the second, and if at both a zone has no type.
fn expected(parent: usize, label: &str, fixed: &str, names: [Text; 2], [first, second]: [usize; 2]) -> Answer {
    let misnamed = names.map(|name| name != padded(fixed.as_bytes()));
    let (rule, node) = match PARENTS[parent].3 {
        _ if names[0] == names[1] => (11, second),
        Skipped => return Answer::Accepted,
        Held(labels) if !labels.contains(&label) => (20, first),
        Held(_) if label == "ZoneType_t" && misnamed == [true, true] => (23, parent),
        Held(_) if misnamed[0] => (21, first),
        Held(_) => (21, second),
    };
    Answer::at_node(rule, node)
}

/// Puts two children of every label allowed once under a parent of the tree, under all pairs of names, in all layouts:
/// each image is answered as expected, and alike by the rules with 22. Answers how many images there were.
fn check_pairs(tree: &Image, parent: usize) -> usize {
    let mut count = 0;
    for (_, label, fixed) in ONCE_ONLY {
        let mut without = tree.clone();
        let known = without.children(parent).into_iter().find(|&n| without.nodes[n].is_labelled(label));
        known.into_iter().for_each(|child| without.remove(child));
        for first in names_for(fixed) {
            for second in names_for(fixed) {
                for (layout, put) in LAYOUTS.iter().enumerate() {
                    let names = [first, second];
                    let mut image = without.clone();
                    let nodes = put(&mut image, parent, names.map(|name| node_of(label, name, directions(parent))));
                    let bytes = image.to_bytes();
                    let answer = expected(parent, label, fixed, names, nodes);
                    let texts = names.map(|name| String::from_utf8_lossy(&name).into_owned());
                    let what = format!("{label} {texts:?} under node {parent}, layout {layout}");
                    assert!(answer.is(&validate(&bytes)), "{what}: {answer:?} {:?}", validate(&bytes));
                    check_alike(&bytes, &what);
                    count += 1;
                }
            }
        }
    }
    count
}

#[test]
fn two_children_of_every_label_under_every_parent() {
    let tree = every_parent();
    assert_eq!(check_alike(&tree.to_bytes(), "every parent"), 0);
    assert!(Answer::Accepted.is(&validate(&tree.to_bytes())));
    for label in LABELS {
        assert!(PARENTS.iter().any(|row| row.2 == label.1), "{label:?}");
    }
    let count: usize = (0..PARENTS.len()).map(|parent| check_pairs(&tree, parent)).sum();
    assert_eq!(count, PARENTS.len() * ONCE_ONLY.len() * 8 * 8 * LAYOUTS.len());
}

#[test]
fn two_children_under_a_root_of_any_label() {
    for label in ["UserDefinedData_t", "Zone_t", "FlowSolution_t", "Rind_t", "CGNSLibraryVersion_t", "Family_t"] {
        let mut tree = every_parent();
        tree.nodes[0].label = padded(label.as_bytes());
        check_pairs(&tree, 0);
    }
}
