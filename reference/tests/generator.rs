//! The generator: every rule that can occur is met, cases are answered as they say, the same seed gives the same images,
//! and every call ends properly on every image and keeps what an acceptance promises.

use std::collections::BTreeMap;

use reference::build::Image;
use reference::damage::{flat_case, mixed_case, name_case, parent_case, point_case, reference_case, Answer, DAMAGES};
use reference::damage::{FLAT_CASES, MIXED_CASES, NAME_CASES, PARENT_CASES, POINT_CASES, REFERENCE_CASES};
use reference::elements::{shape_of, Shape};
use reference::generate::{image, Summary};
use reference::lawful::{lawful, SizeClass};
use reference::points::point_count;
use reference::queries::queries;
use reference::random::Random;
use reference::table::Table;
use reference::validation::validated_tree;
use reference::{array_value, check_table, corner, element_type, face_count, face_usage, path, section_entries};
use reference::{validate, Section, Value};

#[test]
fn every_rule_is_met() {
    for seed in [1, 2, 77] {
        let mut summary = Summary::default();
        for index in 0..200 {
            summary.count(&image(seed, index, SizeClass::Small));
        }
        let met: Vec<u32> = summary.by_rule.keys().copied().collect();
        let rules: Vec<u32> = DAMAGES.iter().map(|(rule, _)| *rule).collect();
        assert_eq!(met, rules, "seed {seed}");
        assert!((55..=85).contains(&summary.accepted), "{}", summary.line());
    }
}

#[test]
fn lawful_images_are_accepted() {
    for (class, count, bytes) in [(SizeClass::Small, 3000, 3200), (SizeClass::Medium, 200, 40_000)] {
        for index in 0..count {
            let image = lawful(&mut Random::new(3, index), class).to_bytes();
            assert!(validate(&image).is_ok(), "{index}: {:?}", validate(&image));
            assert!(image.len() <= bytes);
        }
    }
}

/// Makes all cases of these names so many times, each twenty times a turn: they are answered as they say.
fn check_cases(names: &[&str], turns: usize, case: fn(&mut Image, &mut Random, usize) -> Option<Answer>) {
    for number in 0..turns * names.len() {
        let name = names[number % names.len()];
        let mut made = 0;
        for index in 0..2_000 {
            let mut random = Random::new(number as u64, index);
            let mut image = lawful(&mut random, SizeClass::Small);
            if let Some(answer) = case(&mut image, &mut random, number) {
                let verdict = validate(&image.to_bytes());
                assert!(answer.is(&verdict), "{name}, {index}: {answer:?} {verdict:?}");
                made += 1;
            }
            if made == 20 {
                break;
            }
        }
        assert_eq!(made, 20, "{name}");
    }
}

#[test]
fn cases_of_points_are_answered_as_they_say() {
    check_cases(&POINT_CASES.map(|case| case.0), 4, point_case);
}

#[test]
fn cases_of_flat_elements_are_answered_as_they_say() {
    check_cases(&FLAT_CASES.map(|case| case.0), 1, flat_case);
}

#[test]
fn cases_of_mixed_sections_are_answered_as_they_say() {
    check_cases(&MIXED_CASES.map(|case| case.0), 3, mixed_case);
}

/// A case of a class.
type ClassCase = fn(&mut Image, &mut Random, SizeClass, usize) -> Option<Answer>;

/// The same in small and in medium images, for cases that depend on the class.
fn check_class_cases(names: &[&str], case: ClassCase) {
    for class in [SizeClass::Small, SizeClass::Medium] {
        for (number, name) in names.iter().enumerate() {
            let mut made = 0;
            for index in 0..if class == SizeClass::Small { 100 } else { 20 } {
                let mut random = Random::new(number as u64, index);
                let mut image = lawful(&mut random, class);
                if let Some(answer) = case(&mut image, &mut random, class, number) {
                    let verdict = validate(&image.to_bytes());
                    assert!(answer.is(&verdict), "{name}, {index}: {answer:?} {verdict:?}");
                    made += 1;
                }
            }
            assert!(made > 5, "{name}: {made}");
        }
    }
}

#[test]
fn cases_of_references_are_answered_as_they_say() {
    check_class_cases(&REFERENCE_CASES.map(|case| case.0), reference_case);
}

#[test]
fn cases_of_parents_are_answered_as_they_say() {
    check_class_cases(&PARENT_CASES.map(|case| case.0), parent_case);
}

#[test]
fn cases_of_names_are_answered_as_they_say() {
    check_cases(&NAME_CASES.map(|case| case.0), 2, |image, random, number| {
        name_case(image, random, SizeClass::Small, number)
    });
}

#[test]
fn cases_of_names_are_made_in_every_class() {
    for (class, longest) in [(SizeClass::Small, 30), (SizeClass::Medium, 300), (SizeClass::Large, 3_000)] {
        let mut siblings = 0;
        for number in 0..3 * NAME_CASES.len() {
            let name = NAME_CASES[number % NAME_CASES.len()].0;
            let mut random = Random::new(31, number as u64);
            let made = (0..60).find_map(|_| {
                let mut image = lawful(&mut random, class);
                let answer = name_case(&mut image, &mut random, class, number)?;
                class.holds_family(&image).then_some((image, answer))
            });
            let (image, answer) = made.expect(name);
            let verdict = validate(&image.to_bytes());
            assert!(answer.is(&verdict), "{class:?}, {name}: {answer:?} {verdict:?}");
            let mut of_parents: BTreeMap<u32, usize> = BTreeMap::new();
            image.nodes.iter().for_each(|node| *of_parents.entry(node.parent).or_default() += 1);
            siblings = siblings.max(of_parents.into_values().max().unwrap_or(0));
        }
        assert!(siblings > longest, "{class:?} {siblings}");
    }
}

#[test]
fn sizes_of_arrays_beside_points_are_asked_for() {
    for (class, count) in [(SizeClass::Small, 1_000), (SizeClass::Medium, 88)] {
        let (mut answered, mut structured) = (0, 0);
        for index in 0..count {
            let image = image(6, index, class);
            let Ok(tree) = validated_tree(&image) else {
                continue;
            };
            for line in queries(index, &image) {
                let Some((node, sizes)) = line.strip_prefix("sizes ").and_then(|rest| rest.split_once(" = sizes "))
                else {
                    continue;
                };
                let node: usize = node.parse().unwrap();
                let flow = tree.parent(node).unwrap();
                if point_count(&tree, flow).is_some() {
                    assert!(sizes.starts_with("1 "), "{line}");
                    answered += 1;
                    let zone = tree.parent(flow).unwrap();
                    structured += usize::from(tree.table.dimensions(zone)[0] > 1);
                }
            }
        }
        assert!(answered > 30 && structured > 10, "{answered} {structured}");
    }
}

/// Shows every section of faces or cells of some lawful images, with its image and zone.
fn lawful_sections(mut see: impl FnMut(&[u8], u64, &Section)) {
    for index in 0..3_000 {
        let image = lawful(&mut Random::new(33, index), SizeClass::Small).to_bytes();
        for zone in 0..check_table(&image).unwrap() {
            let entries = section_entries(&image, zone).unwrap_or_default();
            let of_lists = entries.iter().filter(|entry| matches!(entry.element_type, 22 | 23));
            of_lists.for_each(|entry| see(&image, zone, entry));
        }
    }
}

#[test]
fn lawful_elements_stand_on_either_side() {
    let mut sizes: BTreeMap<(i64, u64, u64), u64> = BTreeMap::new();
    lawful_sections(|image, zone, entry| {
        for element in entry.first..=entry.last {
            let size = size_of(image, entry, element);
            *sizes.entry((cell_dimension(image, zone), entry.element_type, size)).or_default() += 1;
        }
    });
    let often = |dimension, element_type, size| sizes.get(&(dimension, element_type, size)).is_some_and(|&n| n > 50);
    for (element_type, least) in [(22, 3), (23, 4)] {
        assert!((least..least + 3).all(|size| often(3, element_type, size)), "{sizes:?}");
        assert!((1..least).all(|size| often(1, element_type, size) && often(2, element_type, size)), "{sizes:?}");
    }
}

#[test]
fn lawful_cells_have_their_usage_answered() {
    let mut cells: BTreeMap<i64, [u64; 2]> = BTreeMap::new();
    lawful_sections(|image, zone, entry| {
        let mut out = vec![0; face_count(image, zone).unwrap() as usize];
        let answered = face_usage(image, zone, &mut out).is_ok();
        if entry.element_type == 23 {
            cells.entry(cell_dimension(image, zone)).or_default()[usize::from(answered)] += 1;
        }
    });
    assert_eq!(cells.len(), 3);
    assert!(cells.values().all(|&[refused, answered]| refused > 20 && answered > refused), "{cells:?}");
}

#[test]
fn same_seed_same_images() {
    for index in 0..100 {
        assert_eq!(image(4, index, SizeClass::Small), image(4, index, SizeClass::Small));
    }
    assert_ne!(image(4, 0, SizeClass::Small), image(5, 0, SizeClass::Small));
}

#[test]
fn every_query_ends_properly() {
    for index in 0..600 {
        let image = image(9, index, SizeClass::Small);
        let lines = queries(index, &image);
        assert_eq!(lines, queries(index, &image));
        assert!(lines.iter().all(|line| line.contains(" = ")));
    }
}

#[test]
fn lists_are_answered_and_refused() {
    let lines: Vec<String> = (0..120).flat_map(|index| queries(index, &image(9, index, SizeClass::Small))).collect();
    let met = |call: &str, answer: &str| lines.iter().any(|line| line.starts_with(call) && line.contains(answer));
    for answer in ["= entries 2", "= refuse 40 0", "= refuse 46 0", "= refuse 3"] {
        assert!(met("list-into ", answer), "list-into {answer}");
    }
    for answer in ["rules 0 0 0", " 40", " 41", " 42", " 43", "= refuse 46 0"] {
        assert!(met("reads ", answer), "reads {answer}");
    }
    for answer in ["= corners ", "= refuse 41 0", "= refuse 43 0", "= refuse 46 0"] {
        assert!(met("element-into ", answer), "element-into {answer}");
    }
}

#[test]
fn any_bytes_end_properly() {
    let mut random = Random::new(8, 8);
    for length in 0..200 {
        let bytes: Vec<u8> = (0..length).map(|_| random.bits() as u8).collect();
        assert!(validate(&bytes).is_err());
        queries(1, &bytes);
    }
}

/// Every read of an accepted image by its entries: no 43, nodes in range, faces of exactly one face section, elements
/// not flat and of the size of their type, and the sum of all uses (demand 3 and the face usage's count).
fn check_promises(image: &[u8]) {
    let count = Table::read(image).map_or(0, |table| table.nodes.len() as u64);
    for zone in 0..count {
        if let Ok(entries) = section_entries(image, zone) {
            check_sections(image, zone, &entries);
            check_usage(image, zone, &entries);
        }
        assert!(path(image, zone).is_ok());
    }
}

/// The number of corners of an element, by reading until it is refused.
fn size_of(image: &[u8], entry: &Section, element: u64) -> u64 {
    let refused = (1..).find(|&c| corner(image, &entry.numbers(), element, c).is_err()).unwrap_or(1);
    assert_eq!(corner(image, &entry.numbers(), element, refused).unwrap_err().rule, 42);
    refused - 1
}

/// CellDimension of a zone's base.
fn cell_dimension(image: &[u8], zone: u64) -> i64 {
    let base = Table::read(image).unwrap().nodes[zone as usize].parent;
    match array_value(image, base as u64, 1) {
        Ok(Value::Whole(dimension)) => dimension,
        other => panic!("{other:?}"),
    }
}

/// Every corner of every element can be read and lies where it has to; in three dimensions there are enough of them.
fn check_sections(image: &[u8], zone: u64, entries: &[Section]) {
    let volume = cell_dimension(image, zone) == 3;
    for entry in entries {
        let least = match entry.element_type {
            22 if volume => 3,
            23 if volume => 4,
            _ => 1,
        };
        for element in entry.first..=entry.last {
            let size = size_of(image, entry, element);
            assert!(size >= least);
            let own_type = element_type(image, &entry.numbers(), element).unwrap();
            if entry.element_type == 20 {
                assert_eq!(shape_of(own_type as i64), Some(Shape::Fixed(size)));
            } else {
                assert_eq!(own_type, entry.element_type);
            }
            for c in 1..=size {
                let number = corner(image, &entry.numbers(), element, c).unwrap();
                if entry.element_type == 23 {
                    let magnitude = number.unsigned_abs();
                    let holding: Vec<&Section> =
                        entries.iter().filter(|e| (e.first..=e.last).contains(&magnitude)).collect();
                    assert_eq!(holding.len(), 1);
                    assert_eq!(holding[0].element_type, 22);
                } else {
                    assert!(number >= 1);
                }
            }
        }
    }
}

/// All uses together are as many as the cells have references; the byte past the faces stays.
fn check_usage(image: &[u8], zone: u64, entries: &[Section]) {
    let faces = face_count(image, zone).unwrap() as usize;
    let mut out = vec![7; faces + 1];
    if face_usage(image, zone, &mut out).is_ok() {
        let uses: u32 = out[..faces].iter().map(|byte| byte.count_ones()).sum();
        let cells = entries.iter().filter(|e| e.element_type == 23);
        let references: u64 = cells.map(|e| e.connectivity_length).sum();
        assert_eq!(u64::from(uses), references);
    }
    assert_eq!(out[faces], 7);
}

#[test]
fn acceptance_keeps_its_promises() {
    for index in 0..2000 {
        let image = image(15, index, SizeClass::Small);
        if validate(&image).is_ok() {
            check_promises(&image);
        }
    }
}

#[test]
fn builder_removes_subtrees() {
    let mut image: Image = reference::cases::tetrahedron();
    image.remove(9);
    assert_eq!(image.nodes.len(), 13);
    assert_eq!(image.children(3).len(), 3);
    image.remove(1);
    assert_eq!(image.nodes[1].parent, 0);
    assert_eq!(image.nodes[2].parent, 1);
}
