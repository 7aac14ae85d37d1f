//! The worked cases of MIXED sections (document 02, §4), `m4_prism` and on: a hexahedron, a prism beside it and a
//! tetrahedron on top of that, each with its type stored before its nodes.

use crate::build::{Image, Node};
use crate::cases::{add_section, beginning, tetrahedron};
use crate::elements::MIXED;

/// The nodes of these cases: a base of three dimensions, a zone of eleven vertices, and its section.
const ZONE: usize = 3;
const SECTION: usize = 5;
const RANGE: usize = 6;
const OFFSETS: usize = 7;
const CONNECTIVITY: usize = 8;

/// The node of case (a) that holds the faces of its cell.
const CELL_FACES: usize = 16;

/// Elements, each with its type in front: HEXA_8, PENTA_6 and TETRA_4.
const HEXAHEDRON: [i64; 9] = [17, 1, 2, 3, 4, 5, 6, 7, 8];
const PRISM: [i64; 7] = [14, 2, 9, 3, 6, 10, 7];
const TETRAHEDRON: [i64; 5] = [10, 6, 10, 7, 11];

/// Where the types of the three elements stand in the connectivity, and where the tetrahedron ends.
const OF_PRISM: usize = 9;
const OF_TETRAHEDRON: usize = 16;
const LENGTH: usize = 21;

/// A zone with a MIXED section of these elements, whose start offsets fit them.
fn mixed(elements: &[&[i64]]) -> Image {
    let mut image = beginning();
    let base = image.add(0, Node::integers("Base", "CGNSBase_t", 4, &[2], &[3, 3]));
    let zone = image.add(base, Node::integers("Zone1", "Zone_t", 4, &[1, 3], &[11, elements.len() as i64, 0]));
    image.add(zone, Node::text("ZoneType", "ZoneType_t", "Unstructured"));
    add_mixed(&mut image, zone, 1, elements);
    image
}

/// Adds a MIXED section of these elements from a number on.
fn add_mixed(image: &mut Image, zone: usize, first: i64, elements: &[&[i64]]) {
    let sizes: Vec<i64> = elements.iter().map(|element| element.len() as i64).collect();
    let range = [first, first + elements.len() as i64 - 1];
    let offsets = Node::start_offsets(4, &sizes).numbers();
    add_section(image, zone, "Mixed", MIXED, range, &offsets, &elements.concat());
}

/// The hexahedron, the prism and the tetrahedron.
fn three() -> Image {
    mixed(&[&HEXAHEDRON, &PRISM, &TETRAHEDRON])
}

/// The three elements with these connectivity entries in place of what stands there.
fn with(image: Image, entries: &[(usize, i64)]) -> Image {
    let mut numbers = image.nodes[CONNECTIVITY].numbers();
    entries.iter().for_each(|&(place, number)| numbers[place] = number);
    with_numbers(image, CONNECTIVITY, &numbers)
}

/// An image with other numbers of a node.
fn with_numbers(mut image: Image, node: usize, numbers: &[i64]) -> Image {
    image.nodes[node].set_numbers(numbers);
    image
}

/// An image with 8 bytes for each number of these nodes.
fn wide(mut image: Image, nodes: &[usize]) -> Image {
    for &node in nodes {
        let numbers = image.nodes[node].numbers();
        image.nodes[node].data_type = *b"I8";
        image.nodes[node].set_numbers(&numbers);
    }
    image
}

/// The three elements without start offsets.
fn no_offsets() -> Image {
    let mut image = three();
    image.remove(OFFSETS);
    image
}

/// The three elements in a zone of one vertex, the only node of all.
fn one_vertex() -> Image {
    let nodes = (0..LENGTH).filter(|place| ![0, OF_PRISM, OF_TETRAHEDRON].contains(place)).map(|place| (place, 1));
    let image = with(three(), &nodes.collect::<Vec<_>>());
    with_numbers(image, ZONE, &[1, 3, 0])
}

/// Case (a), and behind it a MIXED section, node 17, of a tetrahedron and of a triangle, numbers 6 and 7.
fn beside_faces() -> Image {
    let mut image = tetrahedron();
    add_mixed(&mut image, ZONE, 6, &[&[10, 1, 2, 3, 4], &[5, 1, 2, 3]]);
    image
}

/// The cases, each with its name.
pub fn mixed_cases() -> Vec<(&'static str, Vec<u8>)> {
    let stored = |place, element_type| with(three(), &[(place, element_type)]);
    let offsets = |numbers: [i64; 4]| with_numbers(three(), OFFSETS, &numbers);
    let beyond = |number| with(wide(three(), &[CONNECTIVITY]), &[(OF_TETRAHEDRON, number)]);
    let images = [
        ("m4_prism", mixed(&[&HEXAHEDRON, &PRISM])),
        ("m4_three", three()),
        ("m4_wide", wide(three(), &[OFFSETS, CONNECTIVITY])),
        ("m4_wide_offsets", wide(three(), &[OFFSETS])),
        ("m4_wide_connectivity", wide(three(), &[CONNECTIVITY])),
        ("m4_quadrilateral", stored(OF_TETRAHEDRON, 7)),
        ("m4_one_vertex", one_vertex()),
        ("m4_small", mixed(&[&[2, 1], &[3, 1, 2], &[2, 11]])),
        ("m4_faces", stored(OF_PRISM, 22)),
        ("m4_cells", stored(OF_PRISM, 23)),
        ("m4_mixed", stored(OF_PRISM, 20)),
        ("m4_none", stored(0, 0)),
        ("m4_other_size", stored(OF_PRISM, 17)),
        ("m4_shifted", offsets([0, 9, 15, 21])),
        ("m4_type_alone", mixed(&[&HEXAHEDRON, &[10], &PRISM])),
        ("m4_unlisted_alone", mixed(&[&HEXAHEDRON, &[22], &PRISM])),
        ("m4_negative", stored(OF_TETRAHEDRON, -10)),
        ("m4_beyond", beyond((1 << 32) + 10)),
        ("m4_least", beyond(i64::MIN)),
        ("m4_node_then_type", with(three(), &[(1, 0), (OF_TETRAHEDRON, 22)])),
        ("m4_type_then_node", with(three(), &[(0, 22), (LENGTH - 1, 12)])),
        ("m4_node_zero", with(three(), &[(OF_PRISM + 1, 0)])),
        ("m4_node_above", with(three(), &[(LENGTH - 1, 12)])),
        ("m4_node_negative", with(three(), &[(1, -1)])),
        ("m4_range", with_numbers(three(), RANGE, &[1, 4])),
        ("m4_no_offsets", no_offsets()),
        ("m4_first_offset", offsets([1, 9, 16, 21])),
        ("m4_rise", offsets([0, 9, 9, 21])),
        ("m4_length", offsets([0, 9, 16, 20])),
        ("m4_faces_instead", with_numbers(three(), SECTION, &[22, 0])),
        ("m4_beside_faces", beside_faces()),
        ("m4_cell_of_mixed", with_numbers(beside_faces(), CELL_FACES, &[1, 2, 3, 7])),
        ("m4_meets", with_numbers(beside_faces(), 18, &[5, 6])),
    ];
    images.map(|(name, image)| (name, image.to_bytes())).into()
}
