//! The calls: their refusals in order, and the memory that is lent; the numbers of section entries.

use reference::cases::case;
use reference::{corner, face_usage, parents, parents_agree, section_entries, Rejection};

#[test]
fn refusals_of_the_parents_call() {
    let image = case("q7_face_without");
    let refused = |zone, face| parents(&image, zone, face).map_err(|rejection| (rejection.rule, rejection.node));
    for face in 1..=4 {
        assert_eq!(refused(3, face), Ok([5, 0]));
    }
    for face in [0, 5, 7, 8, 1 << 31, 1 << 32, (1 << 32) + 1, 1 << 63, u64::MAX] {
        assert_eq!(refused(3, face), Err((41, 0)), "{face}");
    }
    assert_eq!(refused(3, 6), Err((54, 0)));
    for zone in [0, 1, 2, 4, 9, 17, 22, 99, u64::MAX] {
        assert_eq!(refused(zone, 1), Err((40, 0)), "{zone}");
    }
    assert_eq!(parents(&case("a"), 3, 1), Err(Rejection::of_call(54)));
    assert_eq!(parents(&case("a"), 3, 5), Err(Rejection::of_call(41)));
    assert_eq!(parents(&case("m"), 3, 1), Err(Rejection::of_call(41)));
    assert_eq!(parents(&case("q7_face"), 99, 0), Err(Rejection::at_node(39, 9)));
    assert_eq!(parents(&case("i"), 99, 0), Err(Rejection::at_entry(34, 9, 12)));
    assert_eq!(parents(&case("b"), 3, 1), Err(Rejection::of_call(1)));
}

#[test]
fn memory_of_the_agreement_call() {
    let after = |name: &str, zone, room: usize| {
        let mut out = vec![7; room];
        let rule = parents_agree(&case(name), zone, &mut out).map_err(|rejection| rejection.rule);
        (rule, out)
    };
    assert_eq!(after("q7_agrees", 3, 4), (Ok(true), vec![1; 4]));
    assert_eq!(after("q7_second", 3, 6), (Ok(false), vec![1, 1, 1, 1, 7, 7]));
    assert_eq!(after("q7_both_sides", 3, 5), (Ok(true), vec![1, 1, 1, 3, 7]));
    assert_eq!(after("q7_unused", 3, 4), (Ok(false), vec![1, 1, 3, 0]));
    assert_eq!(after("q7_array_behind", 3, 6), (Ok(true), vec![1, 1, 1, 0, 2, 7]));
    assert_eq!(after("q7_repeat", 3, 5), (Err(45), vec![0, 0, 0, 0, 7]));
    assert_eq!(after("q7_repeat", 3, 3), (Err(44), vec![7; 3]));
    assert_eq!(after("q7_agrees", 3, 3), (Err(44), vec![7; 3]));
    assert_eq!(after("q7_agrees", 3, 0), (Err(44), vec![]));
    for room in [0, 3, 4, 9] {
        assert_eq!(after("a", 3, room), (Err(54), vec![7; room]));
        assert_eq!(after("l", 3, room), (Err(54), vec![7; room]));
        assert_eq!(after("m", 3, room), (Err(54), vec![7; room]));
        assert_eq!(after("q7_agrees", 9, room), (Err(40), vec![7; room]));
        assert_eq!(after("q7_face", 3, room), (Err(39), vec![7; room]));
    }
}

#[test]
fn places_and_widths() {
    let of = |name: &str, k: usize| section_entries(&case(name), 3).unwrap()[k];
    let faces = of("q7_agrees", 0);
    assert_eq!((faces.parents_at, faces.parents_width), (case("q7_agrees").len() as u64 - 32, 4));
    assert_eq!(faces.numbers()[9..], [faces.parents_at, 4]);
    let wide = of("q7_wide", 0);
    assert_eq!((wide.parents_at, wide.parents_width), (case("q7_wide").len() as u64 - 64, 8));
    for (name, section) in [
        ("a", 0),
        ("q7_agrees", 1),
        ("q7_user", 0),
        ("q7_unknown", 0),
        ("q7_name", 0),
        ("q7_in_cells", 0),
        ("q7_in_cells", 1),
        ("q7_numbers_in_cells", 1),
        ("q7_in_triangles", 0),
        ("q7_in_mixed", 2),
        ("q7_face_without", 2),
    ] {
        assert_eq!(of(name, section).numbers()[9..], [0, 0], "{name}");
    }
    let behind = of("q7_array_behind", 2);
    assert_eq!((behind.parents_at, behind.parents_width), (case("q7_array_behind").len() as u64 - 16, 8));
}

#[test]
fn readers_ignore_the_parents() {
    let image = case("q7_agrees");
    let mut numbers = section_entries(&image, 3).unwrap()[0].numbers();
    for (at, width) in [(0, 0), (u64::MAX, 3), (1 << 63, u64::MAX)] {
        (numbers[9], numbers[10]) = (at, width);
        assert_eq!(corner(&image, &numbers, 4, 1), Ok(3));
    }
}

#[test]
fn usage_is_what_it_was() {
    let (mut with, mut without) = ([7; 5], [7; 5]);
    assert_eq!(face_usage(&case("q7_second"), 3, &mut with), Ok(4));
    assert_eq!(face_usage(&case("a"), 3, &mut without), Ok(4));
    assert_eq!(with, without);
}
