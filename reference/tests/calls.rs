//! Paths, sizes, section entries, values and face usage: answers, refusals, and the memory that is lent.

use reference::build::{Image, Node};
use reference::cases::{case, tetrahedron};
use reference::{array_value, data_size, face_usage, path, path_into};
use reference::{section_entries, section_entries_into, Rejection, Section, Value, ENTRY_LENGTH};

/// The rule of a refusal; 0 for an answer.
fn rule<T>(answer: Result<T, Rejection>) -> u32 {
    answer.map_or_else(|r| r.rule, |_| 0)
}

/// Node numbers that case (a) does not have.
const NO_NODES: [u64; 5] = [17, 18, 4_294_967_295, 1 << 32, u64::MAX];

#[test]
fn paths() {
    let image = case("a");
    assert_eq!(path(&image, 0).unwrap(), b"/");
    assert_eq!(path(&image, 2).unwrap(), b"/Base");
    assert_eq!(path(&image, 16).unwrap(), b"/Base/Zone1/Cells/ElementConnectivity");
    for node in NO_NODES {
        assert_eq!(rule(path(&image, node)), 40);
    }
    assert_eq!(rule(path(&case("e"), 16)), 0);
    assert_eq!(rule(path(&case("b"), 0)), 1);
    let mut odd = tetrahedron();
    odd.nodes[2].name[10] = b'x';
    assert_eq!(path(&odd.to_bytes(), 3).unwrap(), b"/Base      x/Zone1");
}

#[test]
fn paths_into_memory() {
    let image = case("a");
    let mut out = [7; 8];
    assert_eq!(path_into(&image, 2, &mut out), Ok(5));
    assert_eq!(&out, b"/Base\x07\x07\x07");
    let mut out = [7; 4];
    assert_eq!(path_into(&image, 2, &mut out), Err(Rejection::of_call(46)));
    assert_eq!(rule(path_into(&image, 17, &mut out)), 40);
    assert_eq!(rule(path_into(&case("c"), 0, &mut out)), 4);
    assert_eq!(out, [7; 4]);
    assert_eq!(rule(path_into(&image, 0, &mut [])), 46);
}

#[test]
fn sizes() {
    let image = case("a");
    for node in 6..9 {
        assert_eq!(data_size(&image, node).unwrap().dimensions(), [4]);
    }
    for node in [0, 1, 5, 11, 12].into_iter().chain(NO_NODES) {
        assert_eq!(rule(data_size(&image, node)), 40);
    }
    assert_eq!(rule(data_size(&case("e"), 6)), 30);
    let mut image = tetrahedron();
    let user = image.add(5, Node::empty("U", "UserDefinedData_t"));
    let grid = image.add(user, Node::empty("G", "GridCoordinates_t"));
    let array = image.add(grid, Node::list("A", 4, &[1]));
    assert_eq!(rule(data_size(&image.to_bytes(), array as u64)), 40);
}

#[test]
fn entries() {
    let image = case("a");
    let entries = section_entries(&image, 3).unwrap();
    assert_eq!(entries[0].numbers(), [9, 22, 1, 4, 1736, 4, 1756, 4, 12, 0, 0]);
    assert_eq!(entries[1].numbers(), [13, 23, 5, 5, 1820, 4, 1828, 4, 4, 0, 0]);
    assert_eq!(entries.len(), 2);
    for node in [0, 2, 4, 9].into_iter().chain(NO_NODES) {
        assert_eq!(rule(section_entries(&image, node)), 40);
    }
    assert_eq!(rule(section_entries(&case("i"), 3)), 34);
    assert_eq!(section_entries(&case("m"), 3), Ok(vec![]));
}

#[test]
fn entries_into_memory() {
    let image = case("a");
    let filling = Section::of_numbers(&[7; ENTRY_LENGTH]);
    let mut out = [filling; 3];
    assert_eq!(section_entries_into(&image, 3, &mut out), Ok(2));
    assert_eq!(out[..2], section_entries(&image, 3).unwrap());
    assert_eq!(out[2], filling);
    let mut out = [filling; 1];
    assert_eq!(rule(section_entries_into(&image, 3, &mut out)), 46);
    assert_eq!(rule(section_entries_into(&image, 2, &mut out)), 40);
    assert_eq!(rule(section_entries_into(&case("g"), 3, &mut out)), 32);
    assert_eq!(out, [filling]);
}

#[test]
fn entry_of_a_fixed_type_with_and_without_offsets() {
    let mut image = tetrahedron();
    image.nodes[9].set_numbers(&[5, 0]);
    image.remove(13);
    let entry = section_entries(&image.to_bytes(), 3).unwrap()[0];
    assert_eq!((entry.element_type, entry.offsets_width), (5, 4));
    assert!(entry.offsets_at > 0);
    image.remove(11);
    let entry = section_entries(&image.to_bytes(), 3).unwrap()[0];
    assert_eq!((entry.offsets_at, entry.offsets_width), (0, 0));
}

#[test]
fn a_foreign_zone_is_no_zone() {
    let mut image = tetrahedron();
    let foreign = image.add(2, Node::empty("F", "Family_t"));
    let mut zone = image.nodes[3].clone();
    zone.name[4] = b'2';
    let zone = image.add(foreign, zone) as u64;
    let bytes = image.to_bytes();
    assert_eq!(rule(section_entries(&bytes, zone)), 40);
    assert_eq!(rule(face_usage(&bytes, zone, &mut [0; 9])), 40);
    let mut image = tetrahedron();
    image.nodes[0].label = image.nodes[3].label;
    assert_eq!(rule(section_entries(&image.to_bytes(), 0)), 40);
}

#[test]
fn values() {
    let image = case("a");
    assert_eq!(array_value(&image, 2, 2), Ok(Value::Whole(3)));
    assert_eq!(array_value(&image, 6, 2), Ok(Value::Double(1.0f64.to_bits())));
    assert_eq!(array_value(&image, 1, 1), Ok(Value::Single(4.0f32.to_bits())));
    for k in [0, 3, u64::MAX] {
        assert_eq!(rule(array_value(&image, 2, k)), 42);
    }
    for (node, k) in [(0, 1), (4, 1), (4, 99)] {
        assert_eq!(rule(array_value(&image, node, k)), 47);
    }
    for node in NO_NODES {
        assert_eq!(rule(array_value(&image, node, 1)), 40);
    }
    assert_eq!(rule(array_value(&case("b"), 0, 0)), 1);
    assert_eq!(rule(array_value(&case("j0"), 16, 4)), 0);
}

#[test]
fn values_keep_their_bits() {
    let mut image = Image::with_root("r", "r");
    let nan = 0x7ff0_0000_0000_0001u64;
    image.add(0, Node::new("D", "F", "R8", &[1, 2], [[0; 8], nan.to_le_bytes()].concat()));
    image.add(0, Node::new("S", "F", "R4", &[1], 0xff80_0001u32.to_le_bytes().to_vec()));
    image.add(0, Node::integers("I", "F", 8, &[1], &[i64::MIN]));
    image.add(0, Node::integers("J", "F", 4, &[1], &[-2_147_483_648]));
    image.add(0, Node::new("U", "F", "U4", &[1], vec![0; 4]));
    let image = image.to_bytes();
    assert_eq!(array_value(&image, 1, 2), Ok(Value::Double(nan)));
    assert_eq!(array_value(&image, 2, 1), Ok(Value::Single(0xff80_0001)));
    assert_eq!(array_value(&image, 3, 1), Ok(Value::Whole(i64::MIN)));
    assert_eq!(array_value(&image, 4, 1), Ok(Value::Whole(-2_147_483_648)));
    assert_eq!(rule(array_value(&image, 5, 1)), 47);
}

#[test]
fn usage_refusals_leave_memory() {
    let mut out = [7; 3];
    assert_eq!(rule(face_usage(&case("a"), 3, &mut out)), 44);
    assert_eq!(rule(face_usage(&case("l"), 3, &mut out)), 44);
    assert_eq!(rule(face_usage(&case("a"), 2, &mut out)), 40);
    assert_eq!(rule(face_usage(&case("a"), u64::MAX, &mut out)), 40);
    assert_eq!(rule(face_usage(&case("i"), 3, &mut out)), 34);
    assert_eq!(out, [7; 3]);
    assert_eq!(face_usage(&case("m"), 3, &mut out), Ok(0));
    assert_eq!(out, [7; 3]);
}

#[test]
fn faces_are_ordered_by_section_node() {
    let mut image = tetrahedron();
    image.nodes[10].set_numbers(&[11, 14]);
    let first = image.add(3, Node::integers("More", "Elements_t", 4, &[2], &[22, 0]));
    image.add(first, Node::integers("ElementRange", "IndexRange_t", 8, &[2], &[1, 2]));
    image.add(first, Node::list("ElementStartOffset", 8, &[0, 3, 7]));
    image.add(first, Node::list("ElementConnectivity", 8, &[1, 2, 4, 1, 3, 2, 4]));
    image.nodes[16].set_numbers(&[12, -2, 2, -14]);
    let mut out = [7; 7];
    assert_eq!(face_usage(&image.to_bytes(), 3, &mut out), Ok(6));
    assert_eq!(out, [0, 1, 0, 2, 0, 3, 7]);
}

#[test]
fn repeat_names_its_element() {
    let mut image = tetrahedron();
    image.nodes[10].set_numbers(&[1, 8]);
    image.nodes[11].set_list(&[0, 3, 6, 9, 12, 15, 18, 21, 24]);
    image.nodes[12].set_list(&[1, 2, 3].repeat(8));
    image.nodes[14].set_numbers(&[9, 11]);
    image.nodes[15].set_list(&[0, 5, 9, 15]);
    let mut references = [1, -1, 2, 3, 4, -2, 5, 6, -3, 7, -4, 8, -5, -6, -1];
    let mut out = [7; 9];
    for (place, reference, element) in [(14, -1, 11), (8, 3, 10), (4, 1, 9)] {
        references[place] = reference;
        image.nodes[16].set_list(&references);
        assert_eq!(face_usage(&image.to_bytes(), 3, &mut out), Err(Rejection::at_element(45, 13, element)));
        assert_eq!(out, [0, 0, 0, 0, 0, 0, 0, 0, 7]);
    }
}
