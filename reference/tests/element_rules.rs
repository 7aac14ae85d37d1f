//! Rules 27 to 37 on changes of case (a): 9 faces (10 range, 11 offsets, 12 nodes), 13 cells (14, 15, 16). For rule 33 see
//! `flat.rs`, for sections of type 20 `mixed/`, for entries `references.rs`.

use reference::build::{Image, Node};
use reference::cases::tetrahedron;
use reference::elements::{shape_of, Shape};
use reference::validate;

/// The rule and node of the refusal; (0, 0) for none.
fn refusal(image: &Image) -> (u32, u64) {
    validate(&image.to_bytes()).map_or_else(|r| (r.rule, r.node), |_| (0, 0))
}

/// Case (a) with one change.
fn changed(change: impl Fn(&mut Image)) -> (u32, u64) {
    let mut image = tetrahedron();
    change(&mut image);
    refusal(&image)
}

/// Case (a) with the cells (now 9 to 12) before the faces (now 13 to 16), and one change.
fn cells_first(change: impl Fn(&mut Image)) -> (u32, u64) {
    let mut image = tetrahedron();
    image.reorder(&[0, 1, 2, 3, 4, 5, 6, 7, 8, 13, 14, 15, 16, 9, 10, 11, 12]);
    change(&mut image);
    refusal(&image)
}

/// Gives a list the other width.
fn widen(node: &mut Node, numbers: &[i64]) {
    node.data_type = *b"I8";
    node.set_list(numbers);
}

#[test]
fn element_types() {
    let nodes = [1, 2, 3, 3, 6, 4, 8, 9, 4, 10, 5, 14, 6, 15, 18, 8, 20, 27];
    for (k, count) in nodes.into_iter().enumerate() {
        assert_eq!(shape_of(k as i64 + 2), Some(Shape::Fixed(count)));
    }
    assert_eq!(shape_of(21), Some(Shape::Fixed(13)));
    assert_eq!(shape_of(20), Some(Shape::Mixed));
    for element_type in [0, 1, 24, 57, -1, -20, -22, i64::from(i32::MIN)] {
        assert_eq!(shape_of(element_type), None);
        assert_eq!(changed(|i| i.nodes[9].set_numbers(&[element_type, 0])), (27, 9));
    }
}

#[test]
fn fixed_sections() {
    let triangles = |i: &mut Image| i.nodes[9].set_numbers(&[5, 0]);
    assert_eq!(changed(triangles), (37, 13));
    let alone = |i: &mut Image| {
        triangles(i);
        i.remove(13);
    };
    assert_eq!(changed(alone), (0, 0));
    let short = |i: &mut Image| {
        alone(i);
        i.nodes[12].set_list(&[1; 11]);
    };
    assert_eq!(changed(short), (29, 9));
    let broken_offsets = |i: &mut Image| {
        alone(i);
        i.nodes[11].data_type = *b"U4";
    };
    assert_eq!(changed(broken_offsets), (24, 11));
}

#[test]
fn ranges() {
    assert_eq!(changed(|i| i.nodes[14].set_numbers(&[4, 4])), (28, 13));
    assert_eq!(changed(|i| i.nodes[14].set_numbers(&[1, 9])), (28, 13));
    assert_eq!(changed(|i| i.nodes[14].set_numbers(&[2_147_483_647, 2_147_483_647])), (0, 0));
    assert_eq!(changed(|i| i.nodes[10].set_numbers(&[1, 2_147_483_647])), (29, 9));
    assert_eq!(cells_first(|i| i.nodes[10].set_numbers(&[4, 4])), (28, 13));
}

#[test]
fn offsets() {
    assert_eq!(changed(|i| i.remove(11)), (29, 9));
    assert_eq!(changed(|i| i.nodes[11].set_list(&[0, 3, 6, 12])), (29, 9));
    assert_eq!(changed(|i| i.nodes[11].set_numbers(&[-1, 3, 6, 9, 12])), (30, 9));
    assert_eq!(changed(|i| i.nodes[11].set_numbers(&[0, 3, 2, 9, 12])), (31, 9));
    assert_eq!(changed(|i| i.nodes[11].set_numbers(&[0, -3, 6, 9, 12])), (31, 9));
    assert_eq!(changed(|i| i.nodes[11].set_numbers(&[0, 3, 6, 13, 12])), (31, 9));
    assert_eq!(changed(|i| i.nodes[11].set_numbers(&[0, 3, 6, 9, 13])), (32, 9));
    assert_eq!(changed(|i| widen(&mut i.nodes[11], &[0, 3, 6, 9, 12])), (0, 0));
    assert_eq!(changed(|i| widen(&mut i.nodes[11], &[0, 3, 6, 9, 12 + (1 << 32)])), (32, 9));
    assert_eq!(changed(|i| i.nodes[12].set_list(&[1; 13])), (32, 9));
}

#[test]
fn node_references() {
    for number in [0, -1, 5, -4, i64::from(i32::MIN), 2_147_483_647] {
        let mut numbers = [1; 12];
        numbers[11] = number;
        assert_eq!(changed(|i| i.nodes[12].set_numbers(&numbers)), (34, 9));
    }
    let mut numbers = [4; 12];
    assert_eq!(changed(|i| widen(&mut i.nodes[12], &numbers)), (0, 0));
    numbers[5] = 4 + (1 << 32);
    assert_eq!(changed(|i| widen(&mut i.nodes[12], &numbers)), (34, 9));
}

#[test]
fn face_references() {
    for (number, rule) in [(0, 35), (5, 37), (-5, 37), (i64::from(i32::MIN), 36), (2_147_483_647, 36)] {
        assert_eq!(changed(|i| i.nodes[16].set_numbers(&[1, 2, 3, number])), (rule, 13));
    }
    for number in [i64::MIN, i64::MAX, -(1 << 32) - 1, 1 << 32] {
        assert_eq!(changed(|i| widen(&mut i.nodes[16], &[1, 2, 3, number])), (36, 13));
    }
    assert_eq!(changed(|i| widen(&mut i.nodes[16], &[-1, 2, -3, 4])), (0, 0));
}

#[test]
fn faces_of_later_sections() {
    assert_eq!(cells_first(|_| ()), (0, 0));
    assert_eq!(cells_first(|i| i.nodes[15].set_numbers(&[0, 3, 6, 9, 11])), (32, 13));
    assert_eq!(cells_first(|i| i.remove(16)), (23, 13));
    assert_eq!(cells_first(|i| i.remove(15)), (29, 13));
    assert_eq!(cells_first(|i| i.nodes[14].set_numbers(&[0, 4])), (36, 9));
    assert_eq!(cells_first(|i| i.nodes[14].set_numbers(&[1, 3])), (36, 9));
    assert_eq!(cells_first(|i| i.nodes[13].set_numbers(&[22, -1])), (36, 9));
    assert_eq!(cells_first(|i| i.nodes[13].data_type = *b"U4"), (36, 9));
    assert_eq!(cells_first(|i| i.nodes[13].set_numbers(&[5, 0])), (37, 9));
    assert_eq!(cells_first(|i| i.nodes[14].set_numbers(&[1, 5])), (28, 13));
}

#[test]
fn face_ranges_that_meet_are_all_seen() {
    let mut image = tetrahedron();
    image.reorder(&[0, 1, 2, 3, 4, 5, 6, 7, 8, 13, 14, 15, 16, 9, 10, 11, 12]);
    let second = image.add(3, Node::integers("More", "Elements_t", 4, &[2], &[22, 0]));
    image.add(second, Node::integers("ElementRange", "IndexRange_t", 4, &[2], &[2, 2]));
    assert_eq!(refusal(&image), (23, 17));
    image.add(second, Node::list("ElementConnectivity", 4, &[1]));
    assert_eq!(refusal(&image), (28, 17));
}

#[test]
fn faces_of_another_zone_are_none() {
    let mut image = tetrahedron();
    let zone = image.add(2, Node::integers("Z2", "Zone_t", 8, &[1, 3], &[9, 0, 0]));
    image.add(zone, Node::text("ZoneType", "ZoneType_t", "Unstructured"));
    let cells = image.add(zone, Node::integers("C", "Elements_t", 4, &[2], &[23, 0]));
    image.add(cells, Node::integers("ElementRange", "IndexRange_t", 4, &[2], &[1, 1]));
    image.add(cells, Node::list("ElementStartOffset", 8, &[0, 4]));
    image.add(cells, Node::list("ElementConnectivity", 8, &[1, 2, 3, 4]));
    assert_eq!(refusal(&image), (37, 19));
    image.nodes[cells + 1].set_numbers(&[9, 9]);
    assert_eq!(refusal(&image), (36, 19));
}
