//! Whether parents agree with the cells, on every pair.

use super::*;
use reference::cases::case;
use reference::mesh::mesh as block;
use reference::{face_usage, parents, parents_agree, Rejection};

/// Whether the parents of face 1 agree where face 1 is used so by the cells 11, 12 and 13, each of which also uses a face
/// of another section.
fn of_one_face(pair: [i64; 2], uses: [&[i64]; 3]) -> bool {
    let mut image = zone_of(1);
    add_faces(&mut image, 1, 4, &[pair]);
    let cells: Vec<Vec<i64>> = (0..3).map(|k| [&[k as i64 + 2], uses[k]].concat()).collect();
    add_section(&mut image, ZONE, 23, 11, &cells);
    add_section(&mut image, ZONE, 22, 2, &vec![vec![1]; 3]);
    agrees(&image).unwrap()
}

#[test]
fn every_pair_of_a_face() {
    let numbers = [0, 11, 12, 13];
    let pairs = || numbers.iter().skip(1).flat_map(|&first| numbers.map(|second| [first, second]));
    let agreeing = |uses: [&[i64]; 3]| pairs().filter(|&pair| of_one_face(pair, uses)).collect::<Vec<_>>();
    let none: &[i64] = &[];
    assert!(agreeing([none; 3]).is_empty());
    for sign in [1, -1] {
        assert_eq!(agreeing([&[sign], none, none]), [[11, 0]]);
        assert_eq!(agreeing([none, &[sign], none]), [[12, 0]]);
        assert_eq!(agreeing([none, none, &[sign]]), [[13, 0]]);
        assert_eq!(agreeing([&[sign], &[-sign], none]), [[11, 12], [12, 11]]);
        assert_eq!(agreeing([none, &[sign], &[-sign]]), [[12, 13], [13, 12]]);
        assert_eq!(agreeing([&[sign], none, &[-sign]]), [[11, 13], [13, 11]]);
        assert_eq!(agreeing([&[sign, -sign], none, none]), [[11, 11]]);
        assert_eq!(agreeing([none, none, &[sign, -sign]]), [[13, 13]]);
    }
}

#[test]
fn every_face_of_every_section_with_parents_counts() {
    let faces: Vec<i64> = (1..=4).collect();
    let image = |of: [Option<[i64; 2]>; 2]| {
        let mut image = zone_of(3);
        add_section(&mut image, ZONE, 23, 11, std::slice::from_ref(&faces));
        for (first, pair) in [1, 3].into_iter().zip(of) {
            match pair {
                Some(pair) => add_faces(&mut image, first, 8, &[[11, 0], pair]),
                None => add_section(&mut image, ZONE, 22, first, &vec![vec![1, 2, 3]; 2]),
            };
        }
        image
    };
    let (good, bad) = (Some([11, 0]), Some([11, 11]));
    for (of, expected) in [
        ([good, good], Ok(true)),
        ([good, None], Ok(true)),
        ([None, good], Ok(true)),
        ([good, bad], Ok(false)),
        ([bad, good], Ok(false)),
        ([bad, None], Ok(false)),
        ([None, bad], Ok(false)),
        ([None, None], Err(54)),
    ] {
        assert_eq!(agrees(&image(of)), expected);
    }
}

#[test]
fn the_worked_cases() {
    let mut room = [7; 12];
    for (name, zone, expected) in [
        ("q7_agrees", 3, Ok(true)),
        ("q7_wide", 3, Ok(true)),
        ("q7_both_sides", 3, Ok(true)),
        ("q7_two_cells", 3, Ok(true)),
        ("q7_exchanged", 3, Ok(true)),
        ("q7_second_section", 3, Ok(true)),
        ("q7_three_cells", 3, Ok(true)),
        ("q7_apart", 3, Ok(true)),
        ("q7_face_without", 3, Ok(true)),
        ("q7_array_behind", 3, Ok(true)),
        ("q7_cell_first", 3, Ok(true)),
        ("q7_text", 3, Ok(true)),
        ("q7_second", 3, Ok(false)),
        ("q7_one_side", 3, Ok(false)),
        ("q7_unused", 3, Ok(false)),
        ("q7_twice", 3, Ok(false)),
        ("q7_other_twice", 3, Ok(false)),
        ("q7_left_out", 3, Ok(false)),
        ("q7_second_section_left_out", 3, Ok(false)),
        ("q7_second_wrong", 3, Ok(false)),
        ("q7_first_wrong", 3, Ok(false)),
        ("q7_wrong_cell", 3, Ok(false)),
        ("q7_both_named", 3, Ok(false)),
        ("q7_both_sections", 3, Ok(false)),
        ("q7_repeat", 3, Err(Rejection::at_element(45, 13, 5))),
        ("q7_user", 3, Err(Rejection::of_call(54))),
        ("q7_unknown", 3, Err(Rejection::of_call(54))),
        ("q7_name", 3, Err(Rejection::of_call(54))),
        ("q7_in_cells", 3, Err(Rejection::of_call(54))),
        ("q7_numbers_in_cells", 3, Err(Rejection::of_call(54))),
        ("q7_in_triangles", 3, Err(Rejection::of_call(54))),
        ("q7_in_mixed", 3, Err(Rejection::of_call(54))),
        ("a", 3, Err(Rejection::of_call(54))),
        ("m", 3, Err(Rejection::of_call(54))),
        ("q7_agrees", 2, Err(Rejection::of_call(40))),
        ("q7_agrees", 18, Err(Rejection::of_call(40))),
        ("q7_face", 3, Err(Rejection::at_node(39, 9))),
        ("q7_node", 99, Err(Rejection::at_entry(34, 9, 12))),
    ] {
        assert_eq!(parents_agree(&case(name), zone, &mut room), expected, "{name} {zone}");
    }
}

#[test]
fn parents_of_worked_cases() {
    for (name, face, pair) in [
        ("q7_agrees", 1, [5, 0]),
        ("q7_agrees", 4, [5, 0]),
        ("q7_second", 4, [5, 5]),
        ("q7_wide", 3, [5, 0]),
        ("q7_exchanged", 1, [6, 5]),
        ("q7_exchanged", 2, [5, 6]),
        ("q7_three_cells", 3, [7, 9]),
        ("q7_three_cells", 6, [9, 8]),
        ("q7_array_behind", 6, [5, 0]),
        ("q7_repeat", 3, [5, 0]),
    ] {
        assert_eq!(parents(&case(name), 3, face), Ok(pair), "{name} {face}");
    }
}

#[test]
fn agreement_on_block_meshes() {
    for (n, width) in [(1, 4), (2, 8), (3, 4), (20, 4)] {
        let image = block("parents", n, width).unwrap();
        let faces = (3 * (n + 1) * n * n) as usize;
        let (mut usage, mut out) = (vec![7; faces + 1], vec![7; faces + 1]);
        assert_eq!(face_usage(&image, 3, &mut usage), Ok(faces));
        assert_eq!(parents_agree(&image, 3, &mut out), Ok(true), "{n}");
        assert_eq!(out, usage);
        let last = image.len() - width as usize;
        let mut other = image.clone();
        other[last] = faces as u8 + 1;
        other[last + 1] = ((faces + 1) >> 8) as u8;
        assert_eq!(parents_agree(&other, 3, &mut out), Ok(false), "{n}");
        assert_eq!(out, usage);
    }
}
