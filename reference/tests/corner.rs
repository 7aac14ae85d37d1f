//! The corner reader, by the entries of an image and by any numbers at all.

use reference::cases::case;
use reference::random::Random;
use reference::{
    corner, corner_reads, corner_reads_into, element_corners, section_entries, CornerRead, Rejection, ENTRY_LENGTH,
};

/// The rule of a refusal; 0 for an answer.
fn rule(answer: Result<i64, Rejection>) -> u32 {
    answer.map_or_else(|r| r.rule, |_| 0)
}

#[test]
fn corners_of_a_tetrahedron() {
    let image = case("a");
    let entries = section_entries(&image, 3).unwrap();
    let faces = entries[0].numbers();
    let nodes = [1, 3, 2, 1, 2, 4, 2, 3, 4, 3, 1, 4];
    for element in 1..=4u64 {
        for number in 1..=3u64 {
            let stored = nodes[(3 * (element - 1) + number - 1) as usize];
            assert_eq!(corner(&image, &faces, element, number), Ok(stored));
        }
        for number in [0, 4, u64::MAX] {
            assert_eq!(corner(&image, &faces, element, number), Err(Rejection::of_call(42)));
        }
    }
    for element in [0, 5, u64::MAX] {
        assert_eq!(rule(corner(&image, &faces, element, 0)), 41);
    }
    let cells = entries[1].numbers();
    assert_eq!(corner(&case("k"), &cells, 5, 4), Ok(-3));
}

#[test]
fn all_corners_of_an_element() {
    let image = case("a");
    let entries = section_entries(&image, 3).unwrap();
    let faces = entries[0].numbers();
    let mut out = [9; 4];
    for (element, length, rule) in [(0, 4, 41), (5, 4, 41), (2, 2, 46), (2, 0, 46)] {
        assert_eq!(element_corners(&image, &faces, element, &mut out[..length]), Err(Rejection::of_call(rule)));
        assert_eq!(element_corners(&image[..1700], &faces, 2, &mut out), Err(Rejection::of_call(43)));
    }
    assert_eq!(out, [9; 4]);
    assert_eq!(element_corners(&image, &faces, 2, &mut out), Ok(3));
    assert_eq!(out, [1, 2, 4, 9]);
    let cells = entries[1].numbers();
    assert_eq!(element_corners(&case("k"), &cells, 5, &mut out), Ok(4));
    assert_eq!(out[3], -3);
}

#[test]
fn a_list_of_reads() {
    let image = case("a");
    let section = section_entries(&image, 3).unwrap()[1].numbers();
    let reads: Vec<CornerRead> = (0..6).map(|corner| CornerRead { section, element: 5, corner }).collect();
    let answers: Vec<u32> = corner_reads(&image, &reads).into_iter().map(rule).collect();
    assert_eq!(answers, [42, 0, 0, 0, 0, 42]);
}

#[test]
fn a_list_of_reads_into_memory() {
    let image = case("a");
    let mut entries = [[170; ENTRY_LENGTH]; 4];
    for (k, entry) in section_entries(&image, 3).unwrap().iter().enumerate() {
        entries[k] = entry.numbers();
    }
    let (mut numbers, mut rules) = ([9; 7], [9; 8]);
    let reads = [[0, 1, 2], [0, 5, 1], [1, 5, 5], [2, 5, 1], [2, 170, 1], [4, 1, 1]];
    assert_eq!(corner_reads_into(&image, &entries, &reads, &mut numbers, &mut rules), Ok(6));
    assert_eq!(numbers, [3, 0, 0, 0, 0, 0, 9]);
    assert_eq!(rules, [0, 41, 42, 41, 43, 40, 9, 9]);
    assert_eq!(corner_reads_into(&image, &[], &[[u64::MAX; 3]], &mut numbers, &mut rules), Ok(1));
    assert_eq!((numbers[0], rules[0]), (0, 40));
    let before = (numbers, rules);
    for (a, b) in [(5, 8), (7, 5), (0, 0)] {
        let short = corner_reads_into(&image, &entries, &reads, &mut numbers[..a], &mut rules[..b]);
        assert_eq!(short, Err(Rejection::of_call(46)));
    }
    assert_eq!((numbers, rules), before);
}

/// Bytes with the start offsets 0 2 2 −1 9 3 and the connectivity 10 20 30 40 after them, all I4.
fn bytes() -> Vec<u8> {
    let numbers = [0i32, 2, 2, -1, 9, 3, 10, 20, 30, 40];
    numbers.iter().flat_map(|n| n.to_le_bytes()).collect()
}

#[test]
fn starts_and_ends() {
    let entry = [0, 22, 1, 5, 0, 4, 24, 4, 4, 0, 0];
    assert_eq!(corner(&bytes(), &entry, 1, 2), Ok(20));
    assert_eq!(rule(corner(&bytes(), &entry, 1, 3)), 42);
    for element in 2..=5 {
        assert_eq!(rule(corner(&bytes(), &entry, element, 0)), 43);
    }
    let mut short = entry;
    short[8] = 1;
    assert_eq!(rule(corner(&bytes(), &short, 1, 1)), 43);
}

#[test]
fn fixed_types_need_no_offsets() {
    let entry = [0, 3, 8, 9, u64::MAX, 77, 24, 4, 4, 0, 0];
    assert_eq!(corner(&bytes(), &entry, 8, 1), Ok(10));
    assert_eq!(corner(&bytes(), &entry, 9, 2), Ok(40));
    assert_eq!(rule(corner(&bytes(), &entry, 9, 3)), 42);
    let mut third = entry;
    third[3] = 10;
    assert_eq!(rule(corner(&bytes(), &third, 10, 1)), 43);
}

#[test]
fn unreadable_entries() {
    let entry = [0, 22, 1, 1, 0, 4, 24, 4, 4, 0, 0];
    for (place, number) in [(1, 24), (1, 0), (1, u64::MAX), (5, 0), (5, 3), (5, 16), (7, 0), (7, 5), (7, u64::MAX)] {
        let mut other = entry;
        other[place] = number;
        assert_eq!(rule(corner(&bytes(), &other, 1, 9)), 43, "{place} {number}");
    }
    for (place, number) in [(4, 33), (4, u64::MAX), (6, 25), (6, u64::MAX - 15), (8, 5), (8, 1 << 62), (8, u64::MAX)] {
        let mut other = entry;
        other[place] = number;
        assert_eq!(rule(corner(&bytes(), &other, 1, 1)), 43, "{place} {number}");
    }
    assert_eq!(rule(corner(&[], &entry, 1, 1)), 43);
    assert_eq!(rule(corner(&[], &entry, 2, 1)), 41);
}

#[test]
fn any_numbers_end_properly() {
    let image = case("a");
    let ends = [0, 1, 4, 8, 22, 23, 1844, 1 << 32, (1 << 61) - 1, 1 << 61, 1 << 63, u64::MAX - 1, u64::MAX];
    let mut random = Random::new(5, 5);
    for _ in 0..200_000 {
        let mut entry = [0; ENTRY_LENGTH];
        for number in entry.iter_mut() {
            *number = *random.pick(&ends);
        }
        let (element, number) = (*random.pick(&ends), *random.pick(&ends));
        let answer = corner(&image, &entry, element, number);
        let outside = element < entry[2] || entry[3] < element;
        assert_eq!(rule(answer) == 41, outside);
    }
}

#[test]
fn products_do_not_wrap() {
    let mut entry = [0, 17, 0, u64::MAX, 0, 0, 0, 8, 1 << 61, 0, 0];
    assert_eq!(rule(corner(&bytes(), &entry, 1 << 61, 1)), 43);
    entry = [0, 22, 0, u64::MAX, 0, 8, 0, 8, 4, 0, 0];
    assert_eq!(rule(corner(&bytes(), &entry, 1 << 61, 1)), 43);
    entry = [0, 22, 0, u64::MAX, u64::MAX, u64::MAX, 0, 8, 4, 0, 0];
    assert_eq!(rule(corner(&bytes(), &entry, u64::MAX, 1)), 43);
}
