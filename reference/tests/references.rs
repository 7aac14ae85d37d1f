//! References (document 02, §6): rules 34 to 37, which of them comes, and the entry that a refusal names.

use std::collections::BTreeSet;

use reference::build::{Image, Node};
use reference::cases::{case, tetrahedron};
use reference::generate::image;
use reference::lawful::SizeClass;
use reference::mesh::polyhedra;
use reference::table::Table;
use reference::tree::Tree;
use reference::{
    array_value, check_table, data_size, face_count, face_usage, path, section_entries, validate, Rejection,
};

/// The least numbers of 4 and of 8 bytes.
const LEAST: i64 = -(1 << 31);
const LEAST_WIDE: i64 = i64::MIN;

/// Rule, node and entry of the refusal; zeros for none.
fn refusal(image: &Image) -> (u32, u64, u64) {
    validate(&image.to_bytes()).map_or_else(|r| (r.rule, r.node, r.entry), |_| (0, 0, 0))
}

/// Adds a section of elements, each given as its connectivity entries; its range, start offsets and connectivity come
/// behind it. Answers its number.
fn add_section(image: &mut Image, zone: usize, element_type: i64, first: i64, elements: &[&[i64]]) -> usize {
    let own = Node::integers(&format!("Section{first}"), "Elements_t", 4, &[2], &[element_type, 0]);
    let section = image.add(zone, own);
    let sizes: Vec<i64> = elements.iter().map(|element| element.len() as i64).collect();
    let range = [first, first + sizes.len() as i64 - 1];
    image.add(section, Node::integers("ElementRange", "IndexRange_t", 4, &[2], &range));
    image.add(section, Node::start_offsets(4, &sizes));
    image.add(section, Node::list("ElementConnectivity", 4, &elements.concat()));
    section
}

/// Where the range and the connectivity of a section stand behind it.
const RANGE: usize = 1;
const CONNECTIVITY: usize = 3;

/// Puts numbers into a list, each with its entry, counted from 1; the list gets the width.
fn put(image: &mut Image, node: usize, width: usize, numbers: &[(usize, i64)]) {
    let mut all = image.nodes[node].numbers();
    numbers.iter().for_each(|&(entry, number)| all[entry - 1] = number);
    image.nodes[node].data_type = if width == 4 { *b"I4" } else { *b"I8" };
    image.nodes[node].set_list(&all);
}

/// A zone of four vertices, node 2, in a base of three dimensions.
fn empty_zone() -> Image {
    let mut image = Image::with_root("r", "r");
    let base = image.add(0, Node::integers("Base", "CGNSBase_t", 4, &[2], &[3, 3]));
    let zone = image.add(base, Node::integers("Zone", "Zone_t", 4, &[1, 3], &[4, 1, 0]));
    image.add(zone, Node::text("ZoneType", "ZoneType_t", "Unstructured"));
    image
}

const ZONE: usize = 2;
const TRIANGLE: &[i64] = &[1, 2, 3];

/// The cells of every zone of this page: number 4, from element 20 on, with eight references.
const CELLS: usize = 4;

/// A zone with the cells 20 and 21, node 4; and behind them the faces 2 to 4, and these sections, each of two elements.
fn zone_with(others: &[(i64, i64)]) -> Image {
    let mut image = empty_zone();
    add_section(&mut image, ZONE, 23, 20, &[&[2, 3, 4, -2], &[-3, -4, 2, 3]]);
    add_section(&mut image, ZONE, 22, 2, &[TRIANGLE; 3]);
    for &(element_type, first) in others {
        let elements: [&[i64]; 2] = match element_type {
            20 => [&[5, 1, 2, 3]; 2],
            23 => [&[2, 3, 4, -2]; 2],
            _ => [TRIANGLE; 2],
        };
        add_section(&mut image, ZONE, element_type, first, &elements);
    }
    image
}

/// The same with these references of the cells.
fn with(image: &Image, width: usize, numbers: &[(usize, i64)]) -> (u32, u64, u64) {
    let mut image = image.clone();
    put(&mut image, CELLS + CONNECTIVITY, width, numbers);
    refusal(&image)
}

/// The rule that a reference breaks where 2 to 4 are faces and these ranges are those of other sections; 0 for none.
fn broken(number: i64, others: &[(i64, i64)]) -> u32 {
    let magnitude = i128::from(number).abs();
    let within = |first: i64, last: i64| i128::from(first) <= magnitude && magnitude <= i128::from(last);
    match number {
        0 => 35,
        _ if within(2, 4) => 0,
        _ if within(20, 21) || others.iter().any(|&(first, last)| within(first, last)) => 37,
        _ => 36,
    }
}

/// Numbers of 4 bytes: all near the ranges, and the ends.
fn numbers() -> Vec<i64> {
    (-24..=24).chain([i64::from(i32::MAX), -i64::from(i32::MAX), LEAST]).collect()
}

/// Numbers that 4 bytes do not hold.
fn wide_numbers() -> Vec<i64> {
    let (half, whole) = (1i64 << 31, 1i64 << 32);
    let near = [half, half + 2, -half - 2, whole, whole + 2, whole - 2, -whole - 2, whole + 20, 3 - whole];
    [&near[..], &[LEAST_WIDE, LEAST_WIDE + 2, i64::MAX, -i64::MAX, i64::MAX - 2]].concat()
}

#[test]
fn every_number_at_every_entry() {
    let others = [(5, 6), (20, 9), (23, 12), (22, 15)];
    let image = zone_with(&others);
    assert_eq!(refusal(&image), (0, 0, 0));
    let ranges = [(6, 7), (9, 10), (12, 13)];
    for entry in 1..=8 {
        for (width, number) in [4, 8].into_iter().flat_map(|width| numbers().into_iter().map(move |n| (width, n))) {
            let expected = match broken(number, &ranges) {
                _ if (15..=16).contains(&number.abs()) => (0, 0, 0),
                0 => (0, 0, 0),
                rule => (rule, CELLS as u64, entry as u64),
            };
            assert_eq!(with(&image, width, &[(entry, number)]), expected, "{entry} {number} of {width} bytes");
        }
        for number in wide_numbers() {
            assert_eq!(with(&image, 8, &[(entry, number)]), (36, CELLS as u64, entry as u64), "{entry} {number}");
        }
    }
}

#[test]
fn the_first_failing_entry_decides() {
    let image = zone_with(&[(5, 6)]);
    let bad = [(0, 35), (20, 37), (-21, 37), (6, 37), (1, 36), (-9, 36), (LEAST, 36)];
    for (first, rule) in bad {
        for (second, _) in bad {
            for (a, b) in (1..8).flat_map(|a| (a + 1..=8).map(move |b| (a, b))) {
                let told = with(&image, 4, &[(a, first), (b, second)]);
                assert_eq!(told, (rule, CELLS as u64, a as u64), "{first} at {a}, {second} at {b}");
            }
        }
    }
    assert_eq!(with(&image, 4, &[(2, 20), (4, 0)]), (37, 4, 2));
    assert_eq!(with(&image, 4, &[(2, 0), (4, 20)]), (35, 4, 2));
    assert_eq!(with(&image, 8, &[(3, LEAST_WIDE), (4, 0), (5, 20)]), (36, 4, 3));
}

#[test]
fn an_element_of_any_section_is_one() {
    for element_type in [2, 5, 10, 19, 20, 21, 23, 0, 1, 24, 56, -1, -22, 278, LEAST, i64::from(i32::MAX)] {
        let image = zone_with(&[(element_type, 30)]);
        for number in [30, -30, 31, -31] {
            assert_eq!(with(&image, 4, &[(3, number)]), (37, 4, 3), "{element_type} {number}");
        }
        for number in [29, -29, 32, -32] {
            assert_eq!(with(&image, 8, &[(3, number)]), (36, 4, 3), "{element_type} {number}");
        }
    }
    let faces = zone_with(&[(22, 30)]);
    assert_eq!(with(&faces, 4, &[(3, 30), (4, -31)]), (0, 0, 0));
}

#[test]
fn an_earlier_section_is_one_too() {
    let mut image = empty_zone();
    add_section(&mut image, ZONE, 5, 30, &[TRIANGLE; 2]);
    add_section(&mut image, ZONE, 22, 2, &[TRIANGLE; 3]);
    let cells = add_section(&mut image, ZONE, 23, 20, &[&[2, 3, 4, -2], &[-3, -4, 2, 3]]);
    for (number, rule) in [(0, 35), (30, 37), (-31, 37), (32, 36), (20, 37), (22, 36)] {
        let mut image = image.clone();
        put(&mut image, cells + CONNECTIVITY, 4, &[(7, number)]);
        assert_eq!(refusal(&image), (rule, cells as u64, 7));
    }
    image.nodes[4].set_numbers(&[24, 0]);
    put(&mut image, cells + CONNECTIVITY, 4, &[(7, 30)]);
    assert_eq!(refusal(&image), (27, 4, 0));
}

/// Ways in which the own data of a section break rule 24 or 25.
const BAD_OWN: [fn(&mut Node); 8] = [
    |own| own.data_type = *b"U4",
    |own| own.data_type = *b"R4",
    |own| own.dimensions = vec![2, 1],
    |own| own.dimensions = vec![1, 2],
    |own| own.set_list(&[own.numbers()[0], 0, 0]),
    |own| own.set_list(&[own.numbers()[0]]),
    |own| own.set_numbers(&[own.numbers()[0], -1]),
    |own| {
        let numbers = own.numbers();
        own.data_type = *b"I8";
        own.set_numbers(&numbers);
    },
];

/// Ways in which a range of 30 and 31 does not conform.
const BAD_RANGE: [fn(&mut Node); 10] = [
    |range| range.data_type = *b"U4",
    |range| range.data_type = *b"R4",
    |range| range.dimensions = vec![2, 1],
    |range| range.set_list(&[30, 31, 32]),
    |range| range.name[0] = b'e',
    |range| range.label[0] = b'i',
    |range| range.set_numbers(&[0, 31]),
    |range| range.set_numbers(&[-30, 31]),
    |range| range.set_numbers(&[31, 30]),
    |range| {
        range.data_type = *b"I8";
        range.set_numbers(&[30, 1 << 31]);
    },
];

#[test]
fn a_section_that_does_not_count_has_no_elements() {
    for element_type in [22, 5, 20, 23, 24] {
        let image = zone_with(&[(element_type, 30)]);
        let odd = image.nodes.len() - 4;
        let spoil = |node: usize, change: fn(&mut Node)| {
            let mut image = image.clone();
            change(&mut image.nodes[node]);
            image
        };
        let own = BAD_OWN.map(|change| spoil(odd, change));
        let ranges = BAD_RANGE.map(|change| spoil(odd + RANGE, change));
        let mut without = image.clone();
        without.remove(odd + RANGE);
        for image in own.iter().chain(&ranges).chain([&without]) {
            assert!(check_table(&image.to_bytes()).is_ok());
            let (rule, node, entry) = refusal(image);
            assert!(rule < 27 && node >= odd as u64 && entry == 0, "{rule} {node}");
            for (number, rule) in [(30, 36), (-31, 36), (20, 37), (0, 35)] {
                assert_eq!(with(image, 4, &[(5, number)]), (rule, 4, 5), "{element_type}");
            }
        }
    }
}

#[test]
fn nothing_else_is_asked_of_a_section() {
    let changes: [fn(&mut Image, usize); 6] = [
        |image, odd| image.remove(odd + CONNECTIVITY),
        |image, odd| image.remove(odd + 2),
        |image, odd| image.nodes[odd + 2].set_list(&[0]),
        |image, odd| image.nodes[odd + CONNECTIVITY].data_type = *b"U4",
        |image, odd| image.nodes[odd + CONNECTIVITY].set_list(&[-9]),
        |image, odd| {
            image.add(odd, Node::integers("Other", "IndexRange_t", 4, &[2], &[50, 60]));
        },
    ];
    for (element_type, expected) in [(22, 0), (20, 37), (23, 37), (5, 37)] {
        for change in changes {
            let mut image = zone_with(&[(element_type, 30)]);
            let odd = image.nodes.len() - 4;
            change(&mut image, odd);
            let (rule, node, entry) = with(&image, 4, &[(5, -30)]);
            if expected == 37 {
                assert_eq!((rule, node, entry), (37, 4, 5));
            } else {
                assert!(node >= odd as u64, "{rule} {node}");
            }
            assert_eq!(with(&image, 4, &[(5, 50)]), (36, 4, 5));
        }
    }
}

/// Adds a zone behind all nodes with a section of two elements from 30 on.
fn add_zone(image: &mut Image, base: usize, element_type: i64) {
    let zone = image.add(base, Node::integers("Other", "Zone_t", 4, &[1, 3], &[4, 1, 0]));
    image.add(zone, Node::text("ZoneType", "ZoneType_t", "Unstructured"));
    add_section(image, zone, element_type, 30, &[TRIANGLE; 2]);
}

#[test]
fn another_zone_has_other_elements() {
    for element_type in [22, 5] {
        let mut image = zone_with(&[]);
        add_zone(&mut image, 1, element_type);
        assert_eq!(refusal(&image), (0, 0, 0));
        assert_eq!(with(&image, 4, &[(2, 30)]), (36, 4, 2));
        add_section(&mut image, ZONE, 2, 30, &[&[1], &[2]]);
        assert_eq!(with(&image, 4, &[(2, 30)]), (37, 4, 2));
        let mut image = zone_with(&[]);
        let base = image.add(0, Node::integers("Base2", "CGNSBase_t", 4, &[2], &[3, 3]));
        add_zone(&mut image, base, element_type);
        assert_eq!(with(&image, 4, &[(8, -31)]), (36, 4, 8));
    }
}

#[test]
fn a_skipped_section_has_no_elements() {
    for label in ["Family_t", "UserDefinedData_t"] {
        let mut image = zone_with(&[]);
        let above = image.add(ZONE, Node::empty("Above", label));
        add_section(&mut image, above, 22, 30, &[TRIANGLE; 2]);
        assert_eq!(with(&image, 4, &[(2, 30)]), (36, 4, 2));
    }
}

#[test]
fn where_ranges_meet_a_face_is_a_face() {
    let meeting = |types: [i64; 2]| zone_with(&[(types[0], 30), (types[1], 31)]);
    for types in [[22, 5], [5, 22], [22, 20], [23, 22], [22, 22]] {
        let image = meeting(types);
        let later = image.nodes.len() as u64 - 4;
        assert_eq!(with(&image, 4, &[(6, -31)]), (28, later, 0), "{types:?}");
        let only = if types[0] == 22 { 32 } else { 30 };
        let expected = if types == [22, 22] { (28, later, 0) } else { (37, 4, 6) };
        assert_eq!(with(&image, 4, &[(6, only)]), expected, "{types:?}");
    }
    for types in [[5, 5], [5, 20], [23, 5], [20, 23]] {
        assert_eq!(with(&meeting(types), 4, &[(6, 31)]), (37, 4, 6), "{types:?}");
    }
    for (element_type, expected) in [(22, 28), (5, 37)] {
        let image = zone_with(&[(element_type, 21)]);
        let (rule, _, entry) = with(&image, 4, &[(6, 21)]);
        assert_eq!((rule, entry), (expected, if expected == 28 { 0 } else { 6 }));
        assert_eq!(with(&image, 4, &[(6, 20)]), (37, 4, 6));
        assert_eq!(with(&image, 4, &[(6, 23)]), (36, 4, 6));
    }
}

/// One section of these elements in a zone of four vertices.
fn alone(element_type: i64, elements: &[&[i64]]) -> Image {
    let mut image = empty_zone();
    add_section(&mut image, ZONE, element_type, 1, elements);
    image
}

#[test]
fn the_entry_of_a_node() {
    let sections: [(i64, Vec<&[i64]>); 3] = [
        (22, vec![&[1, 2, 3], &[1, 2, 3, 4], &[4, 3, 2]]),
        (7, vec![&[1, 2, 3, 4]; 3]),
        (20, vec![&[5, 1, 2, 3], &[2, 4], &[10, 4, 3, 2, 1], &[3, 1, 2]]),
    ];
    for (element_type, elements) in sections {
        let image = alone(element_type, &elements);
        assert_eq!(refusal(&image), (0, 0, 0));
        let starts: Vec<i64> = image.nodes[CELLS + 2].numbers();
        let types: Vec<i64> = if element_type == 20 { starts } else { vec![] };
        let length = elements.concat().len();
        let with = |width, numbers: &[(usize, i64)]| {
            let mut image = image.clone();
            put(&mut image, CELLS + CONNECTIVITY, width, numbers);
            refusal(&image)
        };
        for entry in (1..=length).filter(|entry| !types.contains(&(*entry as i64 - 1))) {
            for number in [0, -1, -4, 5, LEAST, i64::from(i32::MAX)] {
                assert_eq!(with(4, &[(entry, number)]), (34, 4, entry as u64), "{element_type}");
                assert_eq!(with(8, &[(entry, number), (length, 9)]), (34, 4, entry as u64), "{element_type}");
            }
            for number in [1 << 32, (1 << 32) + 1, LEAST_WIDE, LEAST_WIDE + 1, i64::MAX] {
                assert_eq!(with(8, &[(entry, number)]), (34, 4, entry as u64), "{element_type}");
            }
        }
        for start in types.iter().take(elements.len()) {
            assert_eq!(with(4, &[(*start as usize + 1, 22), (2, 9), (length, 9)]), (38, 4, 0));
        }
    }
}

#[test]
fn other_rules_name_no_entry() {
    let flat = |faces: &[&[i64]]| refusal(&alone(22, faces));
    assert_eq!(flat(&[TRIANGLE, &[9, 1]]), (33, 4, 0));
    assert_eq!(flat(&[&[9, 1, 2], TRIANGLE]), (34, 4, 1));
    let mut cells = zone_with(&[]);
    cells.nodes[CELLS + 2].set_numbers(&[0, 5, 8]);
    assert_eq!(with(&cells, 4, &[(1, 0)]), (33, 4, 0));
    let mut usage = [7; 4];
    let image = case("l");
    assert_eq!(face_usage(&image, 3, &mut usage).unwrap_err().entry, 0);
    for name in ["b", "c", "d", "e", "f", "g", "h", "m4_faces", "f2_face", "o5_rind", "p1_both"] {
        assert_eq!(validate(&case(name)).unwrap_err().entry, 0, "{name}");
    }
    assert_eq!(section_entries(&case("a"), 99).unwrap_err(), Rejection::of_call(40));
}

#[test]
fn calls_give_the_entry_of_the_verdict() {
    for (name, rule, node, entry) in [("i", 34, 9, 12), ("j0", 35, 13, 4), ("jmin", 36, 13, 4), ("j5", 37, 13, 4)] {
        let (image, expected) = (case(name), Rejection::at_entry(rule, node, entry));
        assert_eq!(validate(&image), Err(expected));
        assert_eq!(section_entries(&image, 3), Err(expected));
        assert_eq!(section_entries(&image, 99), Err(expected));
        assert_eq!(data_size(&image, 6), Err(expected));
        assert_eq!(face_count(&image, 3), Err(expected));
        let mut usage = [7; 4];
        assert_eq!(face_usage(&image, 3, &mut usage), Err(expected));
        assert_eq!(usage, [7; 4]);
        assert!(path(&image, 13).is_ok() && array_value(&image, 16, 4).is_ok());
    }
}

#[test]
fn lines_of_refusals() {
    assert_eq!(Rejection::at_entry(36, 13, 4).to_string(), "refuse 36 13 entry 4");
    assert_eq!(Rejection::at_node(33, 13).to_string(), "refuse 33 13");
    assert_eq!(Rejection::at_element(45, 13, 5).to_string(), "refuse 45 13 5");
    assert_eq!(Rejection::of_call(40).to_string(), "refuse 40 0");
}

#[test]
fn the_entry_in_a_long_list() {
    let image = polyhedra(20, 4);
    let is_cells = |n: &usize| image.nodes[*n].is_labelled("Elements_t") && image.nodes[*n].numbers()[0] == 23;
    let cells = (0..image.nodes.len()).find(is_cells).unwrap();
    let array = image.child(cells, "ElementConnectivity").unwrap();
    let length = image.nodes[array].dimensions[0] as usize;
    assert_eq!(length, 48_000);
    for (entry, number, rule) in [(1, 0, 35), (24_001, -1 << 31, 36), (length - 1, 1 << 30, 36), (length, 0, 35)] {
        let mut image = image.clone();
        put(&mut image, array, 4, &[(entry, number)]);
        assert_eq!(refusal(&image), (rule, cells as u64, entry as u64));
    }
}

#[test]
fn the_cell_before_the_faces() {
    let mut image = tetrahedron();
    image.reorder(&[0, 1, 2, 3, 4, 5, 6, 7, 8, 13, 14, 15, 16, 9, 10, 11, 12]);
    put(&mut image, 16, 4, &[(3, 0)]);
    assert_eq!(refusal(&image), (34, 13, 3));
    put(&mut image, 12, 4, &[(2, 5), (3, 0)]);
    assert_eq!(refusal(&image), (37, 9, 2));
}

/// The byte offset and the width of the connectivity of a section, and the entries that are types.
fn connectivity(image: &[u8], node: usize) -> (usize, usize, Vec<u64>) {
    let tree = Tree::new(Table::read(image).unwrap());
    let child = |name: &str| tree.children(node).iter().copied().find(|&child| tree.is_named(child, name));
    let array = child("ElementConnectivity").unwrap();
    let mut types = Vec::new();
    if tree.table.integers(node).get(0) == Some(20) {
        tree.table.integers(child("ElementStartOffset").unwrap()).all(|start| {
            types.push(start as u64 + 1);
            true
        });
    }
    (tree.table.nodes[array].data_at, tree.table.integers(array).width(), types)
}

/// The refusal of an image with another number at an entry.
fn with_entry(image: &[u8], (at, width): (usize, usize), entry: u64, number: &[u8]) -> Option<Rejection> {
    let mut image = image.to_vec();
    let place = at + width * (entry as usize - 1);
    image[place..place + width].copy_from_slice(number);
    validate(&image).err()
}

#[test]
fn generated_entries_are_the_first_failing_ones() {
    let (mut earlier, mut repaired, mut later) = (0, 0, 0);
    for index in 0..6_000 {
        let image = image(6, index, SizeClass::Small);
        let Some(told) = validate(&image).err().filter(|rejection| rejection.entry > 0) else {
            continue;
        };
        let node = told.node as usize;
        let (at, width, types) = connectivity(&image, node);
        let lawful: Vec<u64> = (1..told.entry).filter(|entry| !types.contains(entry)).collect();
        let zero = vec![0; width];
        for &entry in &lawful {
            let rule = if told.rule == 34 { 34 } else { 35 };
            let expected = Rejection::at_entry(rule, node, entry);
            assert_eq!(with_entry(&image, (at, width), entry, &zero), Some(expected), "{index}");
            earlier += 1;
        }
        if let Some(&entry) = lawful.first() {
            let from = at + width * (entry as usize - 1);
            let next = with_entry(&image, (at, width), told.entry, &image[from..from + width]);
            repaired += usize::from(next.is_none());
            let place = |next: Rejection| (next.node, if next.rule == 39 { u64::MAX } else { next.entry });
            let (node, entry) = next.map_or((u64::MAX, 0), place);
            assert!((node, entry) > (told.node, told.entry), "{index}");
            later += usize::from(node == told.node);
        }
    }
    assert!(earlier > 2_000 && repaired > 200 && later > 50, "{earlier} {repaired} {later}");
}

/// Where an entry stands in a list.
#[derive(Clone, Copy, Debug, PartialEq, Eq, PartialOrd, Ord)]
enum Place {
    First,
    Middle,
    Last,
}

/// The rule of an image of the generator that names an entry, the type of the section (2 for all fixed ones), the width of
/// its connectivity and where the entry stands.
fn kind(image: &[u8]) -> Option<(u32, i64, usize, Place)> {
    let rejection = validate(image).err().filter(|rejection| rejection.entry > 0)?;
    let tree = Tree::new(Table::read(image).unwrap());
    let node = rejection.node as usize;
    let array = tree.children(node).iter().find(|&&child| tree.is_named(child, "ElementConnectivity"));
    let numbers = tree.table.integers(*array.unwrap());
    let element_type = match tree.table.integers(node).get(0).unwrap() {
        other @ (20 | 22 | 23) => other,
        _ => 2,
    };
    let place = match rejection.entry {
        1 => Place::First,
        2 if element_type == 20 => Place::First,
        entry if entry == numbers.len() as u64 => Place::Last,
        _ => Place::Middle,
    };
    Some((rejection.rule, element_type, numbers.width(), place))
}

#[test]
fn generated_references_are_of_every_kind() {
    let met: BTreeSet<_> = (0..4_800).filter_map(|index| kind(&image(36, index, SizeClass::Small))).collect();
    for width in [4, 8] {
        for place in [Place::First, Place::Middle, Place::Last] {
            for rule in [35, 36, 37] {
                assert!(met.contains(&(rule, 23, width, place)), "{rule} {width} {place:?}");
            }
            for element_type in [2, 20, 22] {
                assert!(met.contains(&(34, element_type, width, place)), "{element_type} {width} {place:?}");
            }
        }
    }
    assert!(met.iter().all(|&(rule, element_type, ..)| (rule == 34) == (element_type != 23)));
}
