//! Rules 1 to 18 at their edges, on images built for each.

use reference::build::{Image, Node};
use reference::cases::tetrahedron;
use reference::header::{MAX_IMAGE, MAX_NODES, MAX_WORDS};
use reference::{check_table, validate, Rejection};

/// The rule and node of the refusal of rules 1 to 18; (0, 0) for none.
fn refusal(image: &[u8]) -> (u32, u64) {
    check_table(image).map_or_else(|r| (r.rule, r.node), |_| (0, 0))
}

/// Case (a) with one change to a node.
fn changed(node: usize, change: impl Fn(&mut Node)) -> (u32, u64) {
    let mut image = tetrahedron();
    change(&mut image.nodes[node]);
    refusal(&image.to_bytes())
}

/// Case (a) with one word of the header replaced.
fn with_word(place: usize, word: u32) -> (u32, u64) {
    let mut bytes = tetrahedron().to_bytes();
    bytes[4 * place..4 * place + 4].copy_from_slice(&word.to_le_bytes());
    refusal(&bytes)
}

/// An image with a root, a base and a foreign node of that many bytes.
fn with_foreign_bytes(length: usize) -> Vec<u8> {
    let mut image = Image::with_root("r", "r");
    image.add(0, Node::integers("B", "CGNSBase_t", 4, &[2], &[1, 1]));
    image.add(0, Node::new("F", "Foreign_t", "B1", &[length as u64], vec![0; length]));
    image.to_bytes()
}

#[test]
fn lengths_of_images() {
    assert_eq!(refusal(&[]), (1, 0));
    assert_eq!(refusal(&[0; 31]), (1, 0));
    assert_eq!(refusal(&[0; 32]), (2, 0));
    let overhead = with_foreign_bytes(1).len() - 1;
    let longest = with_foreign_bytes(MAX_IMAGE - overhead);
    assert_eq!(longest.len(), 16_777_216);
    assert!(validate(&longest).is_ok());
    assert_eq!(refusal(&with_foreign_bytes(MAX_IMAGE - overhead + 1)), (1, 0));
}

#[test]
fn header_words() {
    assert_eq!(with_word(0, 1), (0, 0));
    assert_eq!(with_word(0, 2), (2, 0));
    assert_eq!(with_word(1, 1845), (3, 0));
    assert_eq!(with_word(2, 0), (4, 0));
    assert_eq!(with_word(2, MAX_NODES + 1), (4, 0));
    assert_eq!(with_word(2, MAX_NODES), (6, 0));
    assert_eq!(with_word(5, MAX_WORDS + 1), (5, 0));
    assert_eq!(with_word(5, MAX_WORDS), (6, 0));
    for (place, word) in [(3, 33), (4, 1461), (6, 1587), (7, 255), (7, u32::MAX), (5, 15), (2, 16)] {
        assert_eq!(with_word(place, word), (6, 0));
    }
}

#[test]
fn most_nodes_and_words() {
    let mut image = Image::with_root("r", "r");
    image.nodes[0] = Node::new("r", "r", "C1", &[1; 12], vec![0]);
    for k in 1..4096 {
        image.add(k / 2, Node::new(&format!("{k}"), "F", "C1", &[1; 12], vec![0]));
    }
    assert_eq!(check_table(&image.to_bytes()), Ok(4096));
}

#[test]
fn parents() {
    assert_eq!(changed(0, |n| n.parent = 0), (7, 0));
    assert_eq!(changed(5, |n| n.parent = 5), (7, 5));
    assert_eq!(changed(5, |n| n.parent = u32::MAX), (7, 5));
    assert_eq!(changed(5, |n| n.parent = 6), (7, 5));
}

#[test]
fn depth() {
    let mut random = reference::random::Random::new(1, 1);
    let deep = reference::lawful::chain(&mut random, 32).to_bytes();
    assert!(validate(&deep).is_ok());
    let too_deep = reference::lawful::chain(&mut random, 33).to_bytes();
    assert_eq!(refusal(&too_deep), (8, 33));
}

#[test]
fn names_and_labels() {
    for byte in [0, 31, 127, 255, b'/'] {
        assert_eq!(changed(3, |n| n.name[31] = byte), (9, 3));
    }
    for byte in [0, 31, 127, 255] {
        assert_eq!(changed(3, |n| n.label[9] = byte), (10, 3));
    }
    assert_eq!(changed(3, |n| n.label[9] = b'/'), (0, 0));
    assert_eq!(changed(3, |n| n.name[0] = b' '), (9, 3));
    assert_eq!(changed(0, |n| n.label[0] = b' '), (10, 0));
    assert_eq!(changed(3, |n| n.name[20] = b'~'), (0, 0));
    assert_eq!(changed(3, |n| n.name[20] = b' '), (0, 0));
    let name_of_x = tetrahedron().nodes[6].name;
    assert_eq!(changed(8, |n| n.name = name_of_x), (11, 8));
    assert_eq!(changed(9, |n| n.name = name_of_x), (0, 0));
}

#[test]
fn data_types() {
    assert_eq!(changed(6, |n| n.data_type = *b"LK"), (12, 6));
    assert_eq!(changed(6, |n| n.data_type = *b"lk"), (13, 6));
    assert_eq!(changed(6, |n| n.data_type = *b"X4"), (0, 0));
    assert_eq!(changed(6, |n| n.data_type = *b"X8"), (16, 6));
}

#[test]
fn dimensions() {
    assert_eq!(changed(0, |n| n.dimensions = vec![1]), (14, 0));
    assert_eq!(changed(6, |n| n.dimensions = vec![]), (14, 6));
    assert_eq!(changed(6, |n| n.dimensions.resize(13, 1)), (14, 6));
    assert_eq!(changed(6, |n| n.dimensions.resize(12, 1)), (0, 0));
    assert_eq!(changed(6, |n| n.first_word = Some(99)), (15, 6));
    assert_eq!(changed(0, |n| n.first_word = Some(1)), (15, 0));
    assert_eq!(changed(16, |n| n.dimension_count = Some(2)), (15, 16));
    assert_eq!(changed(6, |n| n.dimensions = vec![0]), (16, 6));
    assert_eq!(changed(6, |n| n.dimensions = vec![5]), (16, 6));
    assert_eq!(changed(6, |n| n.dimensions = vec![4 + (1 << 61)]), (16, 6));
    assert_eq!(changed(6, |n| n.dimensions = vec![1 << 32, 1 << 32, 4]), (16, 6));
    assert_eq!(changed(6, |n| n.dimensions = vec![3, 0xaaaa_aaaa_aaaa_aaab, 4]), (16, 6));
    assert_eq!(changed(0, |n| n.data = vec![1]), (16, 0));
}

#[test]
fn data_places() {
    assert_eq!(changed(6, |n| n.data_offset = Some(0)), (17, 6));
    assert_eq!(changed(0, |n| n.data_offset = Some(1)), (17, 0));
    let mut image = tetrahedron();
    image.missing_data = 1;
    assert_eq!(refusal(&image.to_bytes()), (17, 16));
    let mut image = tetrahedron();
    image.missing_words = 1;
    assert_eq!(refusal(&image.to_bytes()), (15, 16));
}

#[test]
fn trailing_words_and_bytes() {
    let mut image = tetrahedron();
    image.trailing_words = vec![1];
    assert_eq!(refusal(&image.to_bytes()), (18, 17));
    let mut image = tetrahedron();
    image.trailing_data = vec![0];
    assert_eq!(validate(&image.to_bytes()), Err(Rejection::at_node(18, 17)));
}

#[test]
fn lowest_node_then_lowest_rule() {
    let mut image = tetrahedron();
    image.nodes[7].parent = 7;
    image.nodes[6].data_type = *b"LK";
    image.nodes[6].name[3] = 0;
    image.trailing_data = vec![0];
    assert_eq!(refusal(&image.to_bytes()), (9, 6));
}
