//! MIXED sections (document 02, §4): rule 38 and the rules beside it, corners and types of elements, generated images.

mod generated;
mod reader;
mod rules;
mod stored_types;

use reference::build::{Image, Node};
use reference::{section_entries, validate, Rejection, ENTRY_LENGTH};

/// The fixed types with their nodes, as document 01 lists them.
const LIST: [(i64, usize); 19] = [
    (2, 1),
    (3, 2),
    (4, 3),
    (5, 3),
    (6, 6),
    (7, 4),
    (8, 8),
    (9, 9),
    (10, 4),
    (11, 10),
    (12, 5),
    (13, 14),
    (14, 6),
    (15, 15),
    (16, 18),
    (17, 8),
    (18, 20),
    (19, 27),
    (21, 13),
];

/// The pairs of CellDimension and PhysicalDimension that a base may have.
const DIMENSIONS: [[i64; 2]; 6] = [[1, 1], [1, 2], [1, 3], [2, 2], [2, 3], [3, 3]];

/// Widths of start offsets and of connectivity.
const WIDTHS: [[usize; 2]; 4] = [[4, 4], [4, 8], [8, 4], [8, 8]];

/// The rule and node of the refusal; (0, 0) for none.
fn refusal(image: &Image) -> (u32, u64) {
    validate(&image.to_bytes()).map_or_else(|r| (r.rule, r.node), |_| (0, 0))
}

/// The rule of a refusal; 0 for an answer.
fn rule<T>(answer: Result<T, Rejection>) -> u32 {
    answer.map_or_else(|r| r.rule, |_| 0)
}

/// Adds a section of elements, each given as its connectivity entries; its range, start offsets and connectivity come
/// behind it.
fn add_section(
    image: &mut Image,
    zone: usize,
    element_type: i64,
    first: i64,
    elements: &[Vec<i64>],
    widths: [usize; 2],
) {
    let own = Node::integers(&format!("Section{first}"), "Elements_t", 4, &[2], &[element_type, 0]);
    let section = image.add(zone, own);
    let sizes: Vec<i64> = elements.iter().map(|element| element.len() as i64).collect();
    let range = [first, first + sizes.len() as i64 - 1];
    image.add(section, Node::integers("ElementRange", "IndexRange_t", 4, &[2], &range));
    image.add(section, Node::start_offsets(widths[0], &sizes));
    image.add(section, Node::list("ElementConnectivity", widths[1], &elements.concat()));
}

/// 1 base, 2 zone, 3 its type, 4 MIXED section (5 range, 6 offsets, 7 connectivity) from element 1 on.
fn mesh(dimensions: [i64; 2], vertices: i64, elements: &[Vec<i64>], widths: [usize; 2]) -> Image {
    let mut image = Image::with_root("r", "r");
    let base = image.add(0, Node::integers("Base", "CGNSBase_t", 4, &[2], &dimensions));
    let zone = image.add(base, Node::integers("Zone", "Zone_t", 4, &[1, 3], &[vertices, 1, 0]));
    image.add(zone, Node::text("ZoneType", "ZoneType_t", "Unstructured"));
    add_section(&mut image, zone, 20, 1, elements, widths);
    image
}

/// An element of a type with nodes from 1 on.
fn element(own_type: i64, nodes: usize) -> Vec<i64> {
    (0..=nodes as i64).map(|node| if node == 0 { own_type } else { node }).collect()
}

/// An element of every fixed type.
fn every_type() -> Vec<Vec<i64>> {
    LIST.map(|(own_type, nodes)| element(own_type, nodes)).into()
}

/// Forty triangles, bars and tetrahedra by turns.
fn forty() -> Vec<Vec<i64>> {
    (0..40).map(|k| [element(5, 3), element(3, 2), element(10, 4)][k % 3].clone()).collect()
}

/// The entry of the first section of a zone.
fn entry(image: &[u8], zone: u64) -> [u64; ENTRY_LENGTH] {
    section_entries(image, zone).unwrap()[0].numbers()
}
