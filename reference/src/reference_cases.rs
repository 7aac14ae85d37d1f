//! The worked cases of references (document 02, §6), `r6_zero` and on: case (a) with faces of its cell or nodes of its
//! faces that are none, alone and beside other sections and zones.

use crate::build::{Image, Node};
use crate::cases::{add_section, tetrahedron};
use crate::elements::{MIXED, NFACE_N, NGON_N};

/// The nodes of case (a) that are changed or added to.
const BASE: usize = 2;
const ZONE: usize = 3;
const FACES: usize = 9;
const FACE_RANGE: usize = 10;
const FACE_NODES: usize = 12;
const CELL_RANGE: usize = 14;
const CELL_OFFSETS: usize = 15;
const CELL_FACES: usize = 16;

/// A section that is added behind the cell, its range, and its element.
const ODD: usize = 17;
const ODD_RANGE: usize = 18;
const OF_ODD: i64 = 6;

/// The least numbers of 4 and of 8 bytes.
const LEAST: i64 = -2_147_483_648;
const LEAST_WIDE: i64 = i64::MIN;

/// An image of case (a) with these faces of its cell.
fn with_faces(image: Image, faces: [i64; 4]) -> Image {
    with_list(image, CELL_FACES, &faces)
}

/// The same with 8 bytes for each.
fn with_wide_faces(mut image: Image, faces: [i64; 4]) -> Image {
    image.nodes[CELL_FACES].data_type = *b"I8";
    with_faces(image, faces)
}

/// An image with another list at a node.
fn with_list(mut image: Image, node: usize, numbers: &[i64]) -> Image {
    image.nodes[node].set_list(numbers);
    image
}

/// Case (a) with numbers in place of nodes of its faces, each with its place, counted from 1.
fn with_nodes(changes: &[(usize, i64)]) -> Image {
    let image = tetrahedron();
    let mut nodes = image.nodes[FACE_NODES].numbers();
    changes.iter().for_each(|&(place, number)| nodes[place - 1] = number);
    with_list(image, FACE_NODES, &nodes)
}

/// Case (a) with 8 bytes for each node of its faces, one of them this number.
fn with_wide_node(place: usize, number: i64) -> Image {
    let mut image = tetrahedron();
    let mut nodes = image.nodes[FACE_NODES].numbers();
    nodes[place - 1] = number;
    image.nodes[FACE_NODES].data_type = *b"I8";
    with_list(image, FACE_NODES, &nodes)
}

/// Case (a) with the nodes of its faces as triangles of a fixed type, one of them this number, and no cell.
fn with_triangles(place: usize, number: i64) -> Image {
    let mut image = with_nodes(&[(place, number)]);
    image.nodes[FACES].set_numbers(&[5, 0]);
    image.remove(13);
    image
}

/// Case (a) with a section of one element, number 6, of a type, behind the cell.
fn beside(element_type: i64, connectivity: &[i64]) -> Image {
    let mut image = tetrahedron();
    let number = [OF_ODD, OF_ODD];
    add_section(&mut image, ZONE, "Odd", element_type, number, &[0, connectivity.len() as i64], connectivity);
    image
}

/// A second face section, of face 6, behind the cell, which has it in place of face 4.
fn face_behind() -> Image {
    with_faces(beside(NGON_N, &[1, 2, 3]), [1, 2, 3, -OF_ODD])
}

/// Case (a) with the cell, now from node 9 on, before the faces, now from node 13 on.
fn cell_first() -> Image {
    let mut image = tetrahedron();
    image.reorder(&[0, 1, 2, 3, 4, 5, 6, 7, 8, 13, 14, 15, 16, 9, 10, 11, 12]);
    image
}

/// The cell before the faces, of which a change is made.
fn with_later_faces(change: impl Fn(&mut Image)) -> Image {
    let mut image = cell_first();
    change(&mut image);
    image
}

/// Case (a) with this number as the cell's last face, and a zone behind it whose faces have the numbers 5 and 6.
fn other_zone(face: i64) -> Image {
    let mut image = with_faces(tetrahedron(), [1, 2, 3, face]);
    let zone = image.add(BASE, Node::integers("Zone2", "Zone_t", 4, &[1, 3], &[4, 1, 0]));
    image.add(zone, Node::text("ZoneType", "ZoneType_t", "Unstructured"));
    add_section(&mut image, zone, "Faces", NGON_N, [5, 6], &[0, 3, 6], &[1, 2, 3, 1, 2, 4]);
    image
}

/// Case (a) with two cells, 5 and 6, of these faces.
fn two_cells(faces: [i64; 8]) -> Image {
    let mut image = with_list(tetrahedron(), CELL_RANGE, &[5, 6]);
    image.nodes[CELL_OFFSETS].set_list(&[0, 4, 8]);
    with_list(image, CELL_FACES, &faces)
}

/// An image with a bad boundary count in a section (rule 25).
fn bad_count(mut image: Image, section: usize) -> Image {
    let numbers = image.nodes[section].numbers();
    image.nodes[section].set_numbers(&[numbers[0], -1]);
    image
}

/// An image with a node of unsigned numbers (rule 24).
fn unsigned(mut image: Image, node: usize) -> Image {
    image.nodes[node].data_type = *b"U4";
    image
}

/// The cases, each with its name.
pub fn reference_cases() -> Vec<(&'static str, Vec<u8>)> {
    let faces = |faces| with_faces(tetrahedron(), faces);
    let wide = |faces| with_wide_faces(tetrahedron(), faces);
    let to_odd = |image| with_faces(image, [1, 2, -OF_ODD, 4]);
    let meeting = |image, face| with_list(with_faces(image, [1, face, 3, 4]), ODD_RANGE, &[face.abs(), face.abs()]);
    let images = [
        ("r6_zero", faces([0, 2, 3, 4])),
        ("r6_zero_wide", wide([1, 0, 3, 4])),
        ("r6_itself", faces([1, 2, 5, 4])),
        ("r6_itself_negative", wide([1, 2, 3, -5])),
        ("r6_none", faces([1, 2, 3, 6])),
        ("r6_none_negative", faces([-6, 2, 3, 4])),
        ("r6_least", faces([LEAST, 2, 3, 4])),
        ("r6_least_wide", wide([1, LEAST_WIDE, 3, 4])),
        ("r6_least_in_8_bytes", wide([1, 2, LEAST, 4])),
        ("r6_greatest", faces([1, 2, 2_147_483_647, 4])),
        ("r6_greatest_wide", wide([1, 2, 3, i64::MAX])),
        ("r6_above_4_bytes", wide([1, 2, 3, 1 << 31])),
        ("r6_face_in_4_bytes", wide([(1 << 32) + 1, 2, 3, 4])),
        ("r6_cell_before_zero", faces([1, 5, 3, 0])),
        ("r6_zero_before_cell", faces([1, 0, 3, 5])),
        ("r6_none_before_zero", faces([1, 2, 9, 0])),
        ("r6_none_before_cell", faces([LEAST, 5, 0, 5])),
        ("r6_second_cell", two_cells([1, 2, 3, 4, -1, 6, 0, 7])),
        ("r6_first_cell", two_cells([1, 2, 3, 7, 0, -2, -3, -4])),
        ("r6_other_cell", to_odd(beside(NFACE_N, &[1, 2, 3, 4]))),
        ("r6_fixed", to_odd(beside(5, &[1, 2, 3]))),
        ("r6_mixed", to_odd(beside(MIXED, &[5, 1, 2, 3]))),
        ("r6_untaken", to_odd(beside(24, &[1, 2, 3]))),
        ("r6_untaken_before", with_list(tetrahedron(), FACES, &[24, 0])),
        ("r6_bad_count", to_odd(bad_count(beside(5, &[1, 2, 3]), ODD))),
        ("r6_bad_type", to_odd(unsigned(beside(5, &[1, 2, 3]), ODD))),
        ("r6_bad_range", to_odd(with_list(beside(5, &[1, 2, 3]), ODD_RANGE, &[0, OF_ODD]))),
        ("r6_unsigned_range", to_odd(unsigned(beside(5, &[1, 2, 3]), ODD_RANGE))),
        ("r6_face_behind", face_behind()),
        ("r6_bad_count_of_faces", bad_count(face_behind(), ODD)),
        ("r6_bad_range_of_faces", with_list(face_behind(), ODD_RANGE, &[OF_ODD, 5])),
        ("r6_later_faces", cell_first()),
        ("r6_later_triangles", with_later_faces(|image| image.nodes[13].set_numbers(&[5, 0]))),
        ("r6_later_untaken", with_later_faces(|image| image.nodes[13].set_numbers(&[24, 0]))),
        ("r6_later_bad_count", bad_count(cell_first(), 13)),
        ("r6_later_without_nodes", with_later_faces(|image| image.remove(16))),
        ("r6_other_zone", other_zone(6)),
        ("r6_cell_and_other_zone", other_zone(5)),
        ("r6_meets_face", meeting(beside(5, &[1, 2, 3]), -2)),
        ("r6_meets_cell", meeting(beside(5, &[1, 2, 3]), 5)),
        ("r6_face_meets_cell", meeting(beside(NGON_N, &[1, 2, 3]), 5)),
        ("r6_cell_meets_faces", with_list(tetrahedron(), FACE_RANGE, &[2, 5])),
        ("r6_node_first", with_nodes(&[(1, 0)])),
        ("r6_node_middle", with_nodes(&[(6, -1)])),
        ("r6_node_last", with_nodes(&[(12, LEAST)])),
        ("r6_nodes", with_nodes(&[(5, 9), (2, 5), (12, 0)])),
        ("r6_node_wide", with_wide_node(7, (1 << 32) + 1)),
        ("r6_node_least", with_wide_node(12, LEAST_WIDE)),
        ("r6_node_of_triangle", with_triangles(10, 5)),
    ];
    images.map(|(name, image)| (name, image.to_bytes())).into()
}
