//! Corners and types of elements, by the entries of an image and by others.

use std::collections::BTreeSet;

use super::*;
use reference::cases::case;
use reference::random::Random;
use reference::{corner, corner_reads_into, element_corners, element_type};

#[test]
fn lists_of_reads_skip_the_types() {
    let image = case("m4_three");
    let entries = [entry(&image, 3)];
    let (mut numbers, mut rules) = ([9; 7], [9; 7]);
    let reads = [[0, 2, 1], [0, 3, 4], [0, 3, 5], [0, 4, 1], [0, 1, 8], [1, 1, 1]];
    assert_eq!(corner_reads_into(&image, &entries, &reads, &mut numbers, &mut rules), Ok(6));
    assert_eq!(numbers, [2, 11, 0, 0, 8, 0, 9]);
    assert_eq!(rules, [0, 0, 42, 41, 0, 40, 9]);
}

/// The start offsets 0 4 7 12 and a triangle, a bar and a tetrahedron after them, all I4.
fn bytes() -> Vec<u8> {
    let numbers = [0i32, 4, 7, 12, 5, 1, 2, 3, 3, 1, 2, 10, 1, 2, 3, 4];
    numbers.iter().flat_map(|n| n.to_le_bytes()).collect()
}

/// The entry of these bytes.
const OF_BYTES: [u64; ENTRY_LENGTH] = [0, 20, 1, 3, 0, 4, 16, 4, 12, 0, 0];

#[test]
fn unreadable_entries() {
    for (number, own_type) in [(1, 5), (2, 3), (3, 10)] {
        assert_eq!(element_type(&bytes(), &OF_BYTES, number), Ok(own_type));
    }
    for number in [0, 4, u64::MAX] {
        assert_eq!(rule(element_type(&bytes(), &OF_BYTES, number)), 41);
    }
    let changes = [
        (1, 24),
        (1, u64::MAX),
        (1, 20 + (1 << 32)),
        (4, 4),
        (4, 1),
        (4, u64::MAX),
        (5, 0),
        (5, 8),
        (5, 16),
        (6, 12),
        (6, 20),
        (6, u64::MAX - 3),
        (7, 0),
        (7, 8),
        (7, 5),
        (8, 11),
        (8, 13),
        (8, u64::MAX),
    ];
    for (place, number) in changes {
        let mut other = OF_BYTES;
        other[place] = number;
        assert_eq!(rule(element_type(&bytes(), &other, 3)), 43, "{place} {number}");
        assert_eq!(rule(corner(&bytes(), &other, 3, 0)), 43, "{place} {number}");
        assert_eq!(rule(element_corners(&bytes(), &other, 3, &mut [])), 43, "{place} {number}");
    }
    assert_eq!(rule(element_type(&[], &OF_BYTES, 3)), 43);
    assert_eq!(rule(element_type(&[], &OF_BYTES, 4)), 41);
}

#[test]
fn the_reader_asks_for_the_type_that_stands_there() {
    let with = |place: usize, number: i32, element| {
        let mut bytes = bytes();
        bytes[4 * place..4 * place + 4].copy_from_slice(&number.to_le_bytes());
        element_type(&bytes, &OF_BYTES, element).map_err(|rejection| rejection.rule)
    };
    assert_eq!(with(8, 3, 2), Ok(3));
    for number in [0, 1, 2, 5, 20, 22, 23, 24, -3, i32::MIN] {
        assert_eq!(with(8, number, 2), Err(43), "{number}");
        assert_eq!(with(8, number, 3), Ok(10), "{number}");
    }
    assert_eq!(with(4, 4, 1), Ok(4));
    assert_eq!(with(11, 7, 3), Ok(7));
    assert_eq!(with(2, 6, 2), Err(43));
    assert_eq!(with(2, 6, 3), Err(43));
    assert_eq!(with(2, 6, 1), Ok(5));
}

#[test]
fn other_sections_answer_their_own_type() {
    let image = case("a");
    let entries = section_entries(&image, 3).unwrap();
    assert_eq!(element_type(&image, &entries[0].numbers(), 4), Ok(22));
    assert_eq!(element_type(&image, &entries[1].numbers(), 5), Ok(23));
    for number in [0, 5] {
        assert_eq!(rule(element_type(&image, &entries[0].numbers(), number)), 41);
    }
    let mut triangles = [0, 5, 1, 4, u64::MAX, 77, 16, 4, 12, 0, 0];
    for number in 1..=4 {
        assert_eq!(element_type(&bytes(), &triangles, number), Ok(5));
    }
    triangles[8] = 11;
    assert_eq!(element_type(&bytes(), &triangles, 3), Ok(5));
    assert_eq!(rule(element_type(&bytes(), &triangles, 4)), 43);
    triangles[7] = 8;
    assert_eq!(rule(element_type(&bytes(), &triangles, 1)), 43);
}

#[test]
fn the_type_is_refused_as_corners_are() {
    let image = case("m4_three");
    let section = entry(&image, 3);
    let ends = [0, 1, 4, 8, 20, 22, 928, 1 << 32, 1 << 61, 1 << 63, u64::MAX];
    let mut random = Random::new(4, 4);
    let mut met = BTreeSet::new();
    for _ in 0..200_000 {
        let mut other = section;
        for _ in 0..1 + random.below(3) {
            let place = random.index(ENTRY_LENGTH);
            let near = section[place].wrapping_add(random.below(9)).wrapping_sub(4);
            other[place] = if random.one_in(3) { *random.pick(&ends) } else { near };
        }
        let number = 1 + random.below(4);
        let refused = rule(element_type(&image, &other, number));
        let of_corner = rule(corner(&image, &other, number, 0));
        assert_eq!(refused, if of_corner == 42 { 0 } else { of_corner }, "{other:?} {number}");
        met.insert(refused);
    }
    assert_eq!(met, BTreeSet::from([0, 41, 43]));
}
