//! The worked cases of flat faces and cells (document 02, §2), `f2_face` and on: case (a) with small faces or cells, in
//! bases of three dimensions and of fewer. A repeat that counts, a face from both sides, is also case (k).

use crate::build::{Image, Node};
use crate::cases::{add_section, tetrahedron};
use crate::elements::NGON_N;

/// The nodes of case (a) that are changed.
const BASE: usize = 2;
const ZONE: usize = 3;
const FACE_OFFSETS: usize = 11;
const FACE_NODES: usize = 12;
const CELL_RANGE: usize = 14;
const CELL_OFFSETS: usize = 15;
const CELL_FACES: usize = 16;

/// CellDimension and PhysicalDimension.
const VOLUME: [i64; 2] = [3, 3];
const SURFACE: [i64; 2] = [2, 3];
const PLANE: [i64; 2] = [2, 2];
const LINE: [i64; 2] = [1, 1];

/// Start offsets by which the last of four faces has two of twelve nodes.
const LAST_FLAT: [i64; 5] = [0, 3, 6, 10, 12];

/// Case (a) in a base of these dimensions, with these start offsets of the faces.
fn faces(dimensions: [i64; 2], offsets: &[i64]) -> Image {
    let mut image = tetrahedron();
    image.nodes[BASE].set_numbers(&dimensions);
    image.nodes[FACE_OFFSETS].set_numbers(offsets);
    image
}

/// Case (a) in a base of these dimensions, with cells of these sizes, from number 5 on, and faces.
fn cells(dimensions: [i64; 2], sizes: &[i64], references: &[i64]) -> Image {
    let mut image = tetrahedron();
    image.nodes[BASE].set_numbers(&dimensions);
    image.nodes[CELL_RANGE].set_numbers(&[5, 4 + sizes.len() as i64]);
    let offsets = Node::start_offsets(4, sizes).numbers();
    image.nodes[CELL_OFFSETS].set_list(&offsets);
    image.nodes[CELL_FACES].set_list(references);
    image
}

/// An image with one node of a face changed.
fn with_node(mut image: Image, place: usize, number: i64) -> Image {
    let mut nodes = image.nodes[FACE_NODES].numbers();
    nodes[place] = number;
    image.nodes[FACE_NODES].set_numbers(&nodes);
    image
}

/// Case (a) with one node alone in its first face.
fn one_node() -> Image {
    (0..3).fold(tetrahedron(), |image, place| with_node(image, place, 1))
}

/// The flat face by start offsets of 8 bytes.
fn wide() -> Image {
    let mut image = tetrahedron();
    image.nodes[FACE_OFFSETS].data_type = *b"I8";
    image.nodes[FACE_OFFSETS].set_list(&LAST_FLAT);
    image
}

/// An image of case (a), and behind it a base of these dimensions, whose zone has a face of two nodes in section 20.
fn beside(mut image: Image, dimensions: [i64; 2]) -> Image {
    let base = image.add(0, Node::integers("Base2", "CGNSBase_t", 4, &[2], &dimensions));
    let zone = image.add(base, Node::integers("Zone1", "Zone_t", 4, &[1, 3], &[2, 1, 0]));
    image.add(zone, Node::text("ZoneType", "ZoneType_t", "Unstructured"));
    add_section(&mut image, zone, "Faces", NGON_N, [1, 1], &[0, 2], &[1, 2]);
    image
}

/// Case (a) with elements of two nodes of a fixed type (BAR_2), which have start offsets too.
fn bars() -> Image {
    let mut image = tetrahedron();
    add_section(&mut image, ZONE, "Bars", 3, [6, 7], &[0, 2, 4], &[1, 2, 3, 4]);
    image
}

/// An image of case (a) with the cells, now from node 9 on, before the faces, now from node 13 on.
fn cells_first(mut image: Image) -> Image {
    image.reorder(&[0, 1, 2, 3, 4, 5, 6, 7, 8, 13, 14, 15, 16, 9, 10, 11, 12]);
    image
}

/// An image with this face in place of the cell's last one.
fn with_last_face(mut image: Image, face: i64) -> Image {
    image.nodes[CELL_FACES].set_numbers(&[1, 2, 3, face]);
    image
}

/// The cases, each with its name.
pub fn flat_cases() -> Vec<(&'static str, Vec<u8>)> {
    let flat = || faces(VOLUME, &LAST_FLAT);
    let images = [
        ("f2_face", flat()),
        ("f2_first_face", faces(VOLUME, &[0, 2, 6, 9, 12])),
        ("f2_wide", wide()),
        ("f2_surface", faces(SURFACE, &LAST_FLAT)),
        ("f2_plane", faces(PLANE, &LAST_FLAT)),
        ("f2_one_node", one_node()),
        ("f2_cell", cells(VOLUME, &[3], &[1, 2, 3])),
        ("f2_cell_line", cells(LINE, &[3], &[1, 2, 3])),
        ("f2_one_face", cells(VOLUME, &[4], &[1, 1, 1, 1])),
        ("f2_node", with_node(flat(), 0, 5)),
        ("f2_reference", cells(VOLUME, &[4, 3], &[1, 2, 3, 9, -1, -2, -3])),
        ("f2_rise", faces(VOLUME, &[0, 2, 2, 9, 12])),
        ("f2_length", faces(VOLUME, &[0, 3, 6, 10, 11])),
        ("f2_surface_beside", beside(tetrahedron(), SURFACE)),
        ("f2_volume_beside", beside(faces(SURFACE, &LAST_FLAT), VOLUME)),
        ("f2_bars", bars()),
        ("f2_cells_first", cells_first(flat())),
        ("f2_cells_first_bad", cells_first(with_last_face(flat(), 5))),
    ];
    images.map(|(name, image)| (name, image.to_bytes())).into()
}
