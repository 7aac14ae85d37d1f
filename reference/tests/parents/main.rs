//! Parents of faces (document 02, §7): rule 39 and the rules beside it, section entries, the two parents of a face, whether
//! parents agree with the cells, generated images.

mod agreement;
mod calls;
mod generated;
mod rules;

use reference::build::{Image, Node};
use reference::{parents_agree, validate};

/// The nodes of every zone of these pages, and behind it its sections, five nodes each: the faces with their range, start
/// offsets, connectivity and parents.
const ZONE: usize = 2;
const FACES: usize = 4;
const RANGE: usize = 1;
const OFFSETS: usize = 2;
const CONNECTIVITY: usize = 3;
const PARENTS: usize = 8;

/// The least numbers of 4 and of 8 bytes.
const LEAST: i64 = -(1 << 31);
const LEAST_WIDE: i64 = i64::MIN;

/// Rule, node and entry of the refusal; zeros for none.
fn refusal(image: &Image) -> (u32, u64, u64) {
    validate(&image.to_bytes()).map_or_else(|r| (r.rule, r.node, r.entry), |_| (0, 0, 0))
}

/// Whether the parents of the zone agree; or the rule.
fn agrees(image: &Image) -> Result<bool, u32> {
    parents_agree(&image.to_bytes(), ZONE as u64, &mut [0; 64]).map_err(|rejection| rejection.rule)
}

/// A zone of four vertices, node 2, in a base of so many dimensions.
fn zone_of(dimension: i64) -> Image {
    let mut image = Image::with_root("r", "r");
    let base = image.add(0, Node::integers("Base", "CGNSBase_t", 4, &[2], &[dimension, 3]));
    let zone = image.add(base, Node::integers("Zone", "Zone_t", 4, &[1, 3], &[4, 1, 0]));
    image.add(zone, Node::text("ZoneType", "ZoneType_t", "Unstructured"));
    image
}

/// Adds a section of elements, each given as its connectivity entries; answers its number.
fn add_section(image: &mut Image, zone: usize, element_type: i64, first: i64, elements: &[Vec<i64>]) -> usize {
    let own = Node::integers(&format!("Section{first}"), "Elements_t", 4, &[2], &[element_type, 0]);
    let section = image.add(zone, own);
    let sizes: Vec<i64> = elements.iter().map(|element| element.len() as i64).collect();
    let range = [first, first + sizes.len() as i64 - 1];
    image.add(section, Node::integers("ElementRange", "IndexRange_t", 4, &[2], &range));
    image.add(section, Node::start_offsets(4, &sizes));
    image.add(section, Node::list("ElementConnectivity", 4, &elements.concat()));
    section
}

/// Adds triangles from a number on, with their parents.
fn add_faces(image: &mut Image, first: i64, width: usize, pairs: &[[i64; 2]]) -> usize {
    let section = add_section(image, ZONE, 22, first, &vec![vec![1, 2, 3]; pairs.len()]);
    image.add(section, Node::parent_elements(width, pairs));
    section
}

/// A zone of as many faces, from 1 on, as there are pairs, their parents, and cells of these faces from 11 on; of a base of
/// one dimension, so that cells may have any number of faces.
fn mesh(pairs: &[[i64; 2]], cells: &[&[i64]]) -> Image {
    let mut image = zone_of(1);
    add_faces(&mut image, 1, 4, pairs);
    let cells: Vec<Vec<i64>> = cells.iter().map(|cell| cell.to_vec()).collect();
    add_section(&mut image, ZONE, 23, 11, &cells);
    image
}

/// Three faces and the cells 11 and 12, each pair being 11 and 0.
fn small() -> Image {
    mesh(&[[11, 0]; 3], &[&[1, 2], &[-2, 3]])
}
