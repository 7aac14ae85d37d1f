//! The worked cases of parents (document 02, §7), `q7_agrees` and on: case (a) and meshes of a few more faces and cells,
//! with parents that agree with the cells, that do not, and that are none.

use crate::build::{Image, Node};
use crate::cases::{add_section, beginning, tetrahedron};
use crate::elements::{MIXED, NFACE_N, NGON_N};
use crate::parents::PARENT_ELEMENTS;

/// The nodes of case (a) that are changed or added to.
const BASE: usize = 2;
const ZONE: usize = 3;
const FACES: usize = 9;
const FACE_OFFSETS: usize = 11;
const FACE_NODES: usize = 12;
const CELLS: usize = 13;
const CELL_RANGE: usize = 14;
const CELL_OFFSETS: usize = 15;
const CELL_FACES: usize = 16;

/// The faces of the meshes that are not case (a): node 5, from face 1 on.
const MESH_FACES: usize = 5;

/// The least numbers of 4 and of 8 bytes.
const LEAST: i64 = -2_147_483_648;
const LEAST_WIDE: i64 = i64::MIN;

/// An array of parents, one pair for each face.
fn array(width: usize, pairs: &[[i64; 2]]) -> Node {
    Node::parent_elements(width, pairs)
}

/// An image with a node added to a section, behind all others.
fn with(mut image: Image, section: usize, node: Node) -> Image {
    image.add(section, node);
    image
}

/// An image of case (a) with these parents of its faces, as node 17.
fn with_parents(image: Image, pairs: [[i64; 2]; 4]) -> Image {
    with(image, FACES, array(4, &pairs))
}

/// Case (a) with the parents 5 and 0 of each face.
fn agreeing() -> Image {
    with_parents(tetrahedron(), [[5, 0]; 4])
}

/// Case (a) with these parents of its last face, of 4 or 8 bytes.
fn last_parents(width: usize, last: [i64; 2]) -> Image {
    with(tetrahedron(), FACES, array(width, &[[5, 0], [5, 0], [5, 0], last]))
}

/// An image with another list at a node.
fn with_list(mut image: Image, node: usize, numbers: &[i64]) -> Image {
    image.nodes[node].set_list(numbers);
    image
}

/// Case (a) with these faces of its cell.
fn with_faces(faces: &[i64]) -> Image {
    let image = with_list(tetrahedron(), CELL_OFFSETS, &[0, faces.len() as i64]);
    with_list(image, CELL_FACES, faces)
}

/// Case (a) with two cells, 5 and 6, on the two sides of each face, and these parents.
fn two_cells(pairs: [[i64; 2]; 4]) -> Image {
    let image = with_list(with_faces(&[1, 2, 3, 4, -1, -2, -3, -4]), CELL_RANGE, &[5, 6]);
    with_parents(with_list(image, CELL_OFFSETS, &[0, 4, 8]), pairs)
}

/// A zone of four vertices, node 3, with as many triangles as there are pairs, node 5, cells of these faces behind them,
/// node 9, and the pairs as parents.
fn mesh(cells: &[[i64; 4]], pairs: &[[i64; 2]]) -> Image {
    let mut image = beginning();
    let base = image.add(0, Node::integers("Base", "CGNSBase_t", 4, &[2], &[3, 3]));
    let (faces, count) = (pairs.len() as i64, cells.len() as i64);
    let zone = image.add(base, Node::integers("Zone1", "Zone_t", 4, &[1, 3], &[4, count, 0]));
    image.add(zone, Node::text("ZoneType", "ZoneType_t", "Unstructured"));
    let starts = |step: i64, count: i64| (0..=count).map(|k| step * k).collect::<Vec<i64>>();
    let nodes = [1, 2, 3].repeat(pairs.len());
    add_section(&mut image, zone, "Faces", NGON_N, [1, faces], &starts(3, faces), &nodes);
    add_section(&mut image, zone, "Cells", NFACE_N, [faces + 1, faces + count], &starts(4, count), &cells.concat());
    with(image, MESH_FACES, array(4, pairs))
}

/// Three cells, 7 to 9, each of which meets the two others at two faces; the parents of face 3 are these.
fn three_cells(third: [i64; 2]) -> Image {
    let pairs = [[7, 8], [7, 8], third, [7, 9], [8, 9], [9, 8]];
    mesh(&[[1, 2, 3, 4], [-1, -2, 5, 6], [-3, -4, -5, -6]], &pairs)
}

/// Two cells, 9 and 10, that meet nowhere; the parents of face 1 are these.
fn apart(first: [i64; 2]) -> Image {
    let pairs = [first, [9, 0], [9, 0], [9, 0], [10, 0], [10, 0], [10, 0], [10, 0]];
    mesh(&[[1, -2, 3, -4], [5, 6, -7, -8]], &pairs)
}

/// Adds a section of one element, number 6, of a type, behind all nodes.
fn add_sixth(image: &mut Image, element_type: i64, connectivity: &[i64]) {
    let length = connectivity.len() as i64;
    add_section(image, ZONE, "More", element_type, [6, 6], &[0, length], connectivity);
}

/// Case (a) with such a section, from node 17 on.
fn beside(element_type: i64, connectivity: &[i64]) -> Image {
    let mut image = tetrahedron();
    add_sixth(&mut image, element_type, connectivity);
    image
}

/// Case (a) and a second cell, 6, in a section of its own, on the other side of each face.
fn second_section(pairs: [[i64; 2]; 4]) -> Image {
    with_parents(beside(NFACE_N, &[-1, -2, -3, -4]), pairs)
}

/// Case (a) and a fifth face, 6, in a section of its own, from node 17 on; the cell has these faces.
fn two_face_sections(faces: [i64; 4]) -> Image {
    with_list(beside(NGON_N, &[1, 2, 3]), CELL_FACES, &faces)
}

/// The section of the fifth face.
const FIFTH: usize = 17;

/// Case (a) with parents, and a zone behind it whose only cell has the number 6; the last parent of case (a) is this.
fn other_zone(last: i64) -> Image {
    let mut image = last_parents(4, [last, 0]);
    let zone = image.add(BASE, Node::integers("Zone2", "Zone_t", 4, &[1, 3], &[4, 1, 0]));
    image.add(zone, Node::text("ZoneType", "ZoneType_t", "Unstructured"));
    add_section(&mut image, zone, "Faces", NGON_N, [1, 2], &[0, 3, 6], &[1, 2, 3, 1, 2, 4]);
    add_section(&mut image, zone, "Cells", NFACE_N, [6, 6], &[0, 4], &[1, 2, -1, -2]);
    image
}

/// An image of case (a) with the cell, now from node 9 on, before the faces, now from node 13 on.
fn cell_first(mut image: Image) -> Image {
    let rest = 17..image.nodes.len();
    let order: Vec<usize> = (0..9).chain(13..17).chain(9..13).chain(rest).collect();
    image.reorder(&order);
    image
}

/// Case (a) with parents of another type or shape, their bytes cut off or filled up with zeros.
fn shaped(data_type: &str, dimensions: &[u64]) -> Image {
    let mut node = Node { data_type: data_type.as_bytes().try_into().unwrap_or(*b"MT"), ..array(4, &[[5, 0]; 4]) };
    node.reshape(dimensions);
    with(tetrahedron(), FACES, node)
}

/// Case (a) without parents, but with a node of their name and this label.
fn labelled(node: Node) -> Image {
    with(tetrahedron(), FACES, node)
}

/// Case (a) with its faces as triangles of a fixed type, no cell, and this node in their section.
fn triangles(node: Node) -> Image {
    let mut image = tetrahedron();
    image.nodes[FACES].set_numbers(&[5, 0]);
    image.remove(CELLS);
    with(image, FACES, node)
}

/// Case (a) with parents and a bad boundary count of its cells (rule 25).
fn cells_of_bad_count() -> Image {
    let mut image = agreeing();
    image.nodes[CELLS].set_numbers(&[NFACE_N, -1]);
    image
}

/// An image of case (a) without its cells.
fn without_cells(mut image: Image) -> Image {
    image.remove(CELLS);
    image
}

/// An image without a node.
fn without(mut image: Image, node: usize) -> Image {
    image.remove(node);
    image
}

/// An image with a text below its last node.
fn with_text(mut image: Image) -> Image {
    let last = image.nodes.len() - 1;
    image.add(last, Node::text("Note", "Descriptor_t", "owner, neighbour"));
    image
}

/// The cases, each with its name.
pub fn parent_cases() -> Vec<(&'static str, Vec<u8>)> {
    let reals = |dimensions: &[u64]| {
        let mut node = Node::new(PARENT_ELEMENTS, "DataArray_t", "R8", &[], Vec::new());
        node.reshape(dimensions);
        node
    };
    let empty = |label| Node::empty(PARENT_ELEMENTS, label);
    let (bad, node_five) = ([[5, 0], [5, 0], [5, 0], [0, 0]], [1, 3, 2, 1, 2, 4, 2, 3, 4, 3, 1, 5]);
    let both_sides = |last| with_parents(with_faces(&[1, 2, 3, 4, -4]), [[5, 0], [5, 0], [5, 0], last]);
    let in_one = with_parents(two_face_sections([1, 2, 3, -6]), [[5, 0]; 4]);
    let images = [
        // accepted, and the parents agree
        ("q7_agrees", agreeing()),
        ("q7_wide", last_parents(8, [5, 0])),
        ("q7_both_sides", both_sides([5, 5])),
        ("q7_two_cells", two_cells([[5, 6]; 4])),
        ("q7_exchanged", two_cells([[6, 5], [5, 6], [6, 5], [5, 6]])),
        ("q7_second_section", second_section([[5, 6], [6, 5], [5, 6], [6, 5]])),
        ("q7_three_cells", three_cells([7, 9])),
        ("q7_apart", apart([9, 0])),
        ("q7_face_without", with_parents(two_face_sections([1, 2, 3, 4]), [[5, 0]; 4])),
        ("q7_array_behind", with(two_face_sections([1, 2, 3, -6]), FIFTH, array(8, &[[5, 0]]))),
        ("q7_cell_first", cell_first(agreeing())),
        ("q7_text", with_text(agreeing())),
        // accepted, and they do not
        ("q7_second", last_parents(4, [5, 5])),
        ("q7_one_side", both_sides([5, 0])),
        ("q7_unused", with_parents(with_faces(&[1, 2, 3, -3]), [[5, 0], [5, 0], [5, 5], [5, 0]])),
        ("q7_twice", two_cells([[5, 6], [5, 6], [5, 5], [5, 6]])),
        ("q7_other_twice", two_cells([[6, 6], [5, 6], [5, 6], [5, 6]])),
        ("q7_left_out", two_cells([[5, 6], [5, 6], [5, 6], [5, 0]])),
        ("q7_second_section_left_out", second_section([[6, 0], [6, 5], [5, 6], [6, 5]])),
        ("q7_second_wrong", three_cells([7, 8])),
        ("q7_first_wrong", three_cells([8, 9])),
        ("q7_wrong_cell", apart([10, 0])),
        ("q7_both_named", apart([9, 10])),
        ("q7_both_sections", with(in_one.clone(), FIFTH, array(4, &[[5, 0]]))),
        // accepted, and 45
        ("q7_repeat", with_parents(with_faces(&[1, 2, 3, 3]), [[5, 0]; 4])),
        // accepted, and no section has parents
        ("q7_user", labelled(empty("UserDefinedData_t"))),
        ("q7_unknown", labelled(Node { label: *b"ParentElements_t                ", ..reals(&[3]) })),
        ("q7_name", labelled(Node { name: *b"parentElements                  ", ..reals(&[3]) })),
        ("q7_in_cells", with(tetrahedron(), CELLS, reals(&[7]))),
        ("q7_numbers_in_cells", with(tetrahedron(), CELLS, array(4, &[[-9, 4]]))),
        ("q7_in_triangles", triangles(reals(&[4, 2]))),
        ("q7_in_mixed", with(beside(MIXED, &[5, 1, 2, 3]), FIFTH, array(4, &[[6, 6]]))),
        // an ordinary array that is empty
        ("q7_empty_in_cells", with(tetrahedron(), CELLS, empty("DataArray_t"))),
        ("q7_empty_in_triangles", triangles(empty("DataArray_t"))),
        // no parents by type or shape
        ("q7_empty", labelled(empty("DataArray_t"))),
        ("q7_reals", shaped("R8", &[4, 2])),
        ("q7_singles", shaped("R4", &[4, 2])),
        ("q7_unsigned", shaped("U4", &[4, 2])),
        ("q7_characters", shaped("C1", &[4, 2])),
        ("q7_turned", shaped("I4", &[2, 4])),
        ("q7_list", shaped("I4", &[8])),
        ("q7_three_dimensions", shaped("I4", &[4, 2, 1])),
        ("q7_one_more", shaped("I4", &[5, 2])),
        ("q7_one_less", shaped("I4", &[3, 2])),
        ("q7_one_column", shaped("I4", &[4, 1])),
        ("q7_three_columns", shaped("I8", &[4, 3])),
        // no parents by a number
        ("q7_first_zero", with_parents(tetrahedron(), bad)),
        ("q7_zero_then_cell", last_parents(4, [0, 5])),
        ("q7_face", last_parents(4, [4, 0])),
        ("q7_second_face", last_parents(8, [5, 1])),
        ("q7_none", last_parents(4, [6, 0])),
        ("q7_second_none", last_parents(4, [5, 6])),
        ("q7_negative", last_parents(4, [-5, 0])),
        ("q7_second_negative", last_parents(8, [5, -5])),
        ("q7_least", last_parents(4, [LEAST, 0])),
        ("q7_least_wide", last_parents(8, [5, LEAST_WIDE])),
        ("q7_greatest_wide", last_parents(8, [i64::MAX, 0])),
        ("q7_cell_in_4_bytes", last_parents(8, [(1 << 32) + 5, 0])),
        ("q7_zero_in_4_bytes", last_parents(8, [5, 1 << 32])),
        ("q7_fixed", with_parents(beside(5, &[1, 2, 3]), [[5, 0], [5, 0], [5, 0], [5, 6]])),
        ("q7_mixed", with_parents(beside(MIXED, &[10, 1, 2, 3, 4]), [[5, 0], [6, 0], [5, 0], [5, 0]])),
        ("q7_other_zone", other_zone(6)),
        ("q7_no_cells", without_cells(agreeing())),
        // beside other rules
        ("q7_cells_of_bad_count", cells_of_bad_count()),
        ("q7_cells_of_bad_range", with_list(agreeing(), CELL_RANGE, &[5, 4])),
        ("q7_cells_first_of_bad_count", cell_first(cells_of_bad_count())),
        ("q7_cells_without_faces", without(agreeing(), CELL_FACES)),
        ("q7_cell_of_bad_face", with_list(agreeing(), CELL_FACES, &[1, 2, 3, 0])),
        ("q7_cell_meets_faces", with_parents(with_list(tetrahedron(), CELL_RANGE, &[4, 4]), [[4, 0]; 4])),
        ("q7_node", with_list(with_parents(tetrahedron(), bad), FACE_NODES, &node_five)),
        ("q7_offset", with_list(with_parents(tetrahedron(), bad), FACE_OFFSETS, &[1, 3, 6, 9, 12])),
        ("q7_before_cell", with_list(with_parents(tetrahedron(), bad), CELL_FACES, &[1, 2, 3, 0])),
        ("q7_behind_cell", cell_first(with_list(with_parents(tetrahedron(), bad), CELL_FACES, &[1, 2, 3, 0]))),
        ("q7_two_arrays", with(with_parents(two_face_sections([1, 2, 3, -6]), bad), FIFTH, array(4, &[[0, 0]]))),
        ("q7_second_array", with(in_one, FIFTH, array(4, &[[0, 0]]))),
    ];
    images.map(|(name, image)| (name, image.to_bytes())).into()
}
