//! Parents of generated images: of every kind, and answered as walking all cells answers them.

use std::collections::{BTreeMap, BTreeSet};

use reference::damage::{parent_case, PARENT_CASES};
use reference::generate::image;
use reference::lawful::{lawful, SizeClass};
use reference::queries::queries;
use reference::random::Random;
use reference::{check_table, corner, face_usage, parents, parents_agree, section_entries, validate, Section};

/// The cells that use each face of a zone, by reading every corner of every cell.
fn cells_of_faces(image: &[u8], entries: &[Section]) -> BTreeMap<u64, Vec<u64>> {
    let mut cells: BTreeMap<u64, Vec<u64>> = BTreeMap::new();
    for entry in entries.iter().filter(|entry| entry.element_type == 23) {
        for cell in entry.first..=entry.last {
            let faces = (1..).map_while(|c| corner(image, &entry.numbers(), cell, c).ok());
            faces.for_each(|face| cells.entry(face.unsigned_abs()).or_default().push(cell));
        }
    }
    cells
}

/// Whether two parents are those of a face that these cells use, as document 02 words it.
fn agree(pair: [u64; 2], cells: &[u64]) -> bool {
    match cells.len() {
        0 => false,
        1 => pair[0] == cells[0] && pair[1] == 0,
        _ => {
            let (mut pair, mut cells) = (pair, cells.to_vec());
            pair.sort_unstable();
            cells.sort_unstable();
            pair[..] == cells[..]
        }
    }
}

/// The parents of a face as the entry of its section places them.
fn pair_at(image: &[u8], entry: &Section, face: u64) -> [u64; 2] {
    let count = entry.last - entry.first + 1;
    [0, count].map(|before| {
        let at = (entry.parents_at + entry.parents_width * (before + face - entry.first)) as usize;
        reference::bytes::signed_at(image, at, entry.parents_width as usize) as u64
    })
}

/// Holds the calls against walking all cells of a zone; answers what the agreement call does.
fn check_zone(image: &[u8], zone: u64, entries: &[Section]) -> Result<bool, u32> {
    let faces: Vec<&Section> = entries.iter().filter(|entry| entry.element_type == 22).collect();
    let with_parents: Vec<&&Section> = faces.iter().filter(|entry| entry.parents_width > 0).collect();
    let cells = cells_of_faces(image, entries);
    let mut expected = Ok(true);
    for entry in &faces {
        for face in entry.first..=entry.last {
            let told = parents(image, zone, face).map_err(|rejection| rejection.rule);
            if entry.parents_width == 0 {
                assert_eq!(told, Err(54));
                continue;
            }
            let pair = pair_at(image, entry, face);
            assert_eq!(told, Ok(pair));
            let used = cells.get(&face).map_or(&[][..], Vec::as_slice);
            if !agree(pair, used) {
                expected = Ok(false);
            }
            let is_cell = |number| entries.iter().any(|e| e.element_type == 23 && (e.first..=e.last).contains(&number));
            assert!(is_cell(pair[0]) && (pair[1] == 0 || is_cell(pair[1])));
        }
    }
    let count: usize = faces.iter().map(|entry| (entry.last - entry.first + 1) as usize).sum();
    let (mut usage, mut out) = (vec![7; count + 1], vec![7; count + 1]);
    let used = face_usage(image, zone, &mut usage);
    let told = parents_agree(image, zone, &mut out).map_err(|rejection| rejection.rule);
    if with_parents.is_empty() {
        assert_eq!((told, out), (Err(54), vec![7; count + 1]));
        return Err(54);
    }
    if let Err(rejection) = used {
        expected = Err(rejection.rule);
    }
    assert_eq!((told, &out), (expected, &usage));
    if count > 0 {
        let mut short = vec![7; count - 1];
        assert_eq!(parents_agree(image, zone, &mut short).map_err(|rejection| rejection.rule), Err(44));
        assert_eq!(short, vec![7; count - 1]);
    }
    told
}

#[test]
fn answers_are_those_of_walking_all_cells() {
    for (class, count, least) in [(SizeClass::Small, 5_000, 40), (SizeClass::Medium, 400, 20)] {
        let mut met: BTreeMap<Result<bool, u32>, u64> = BTreeMap::new();
        for index in 0..count {
            let image = image(39, index, class);
            if validate(&image).is_err() {
                continue;
            }
            for zone in 0..check_table(&image).unwrap() {
                if let Ok(entries) = section_entries(&image, zone) {
                    *met.entry(check_zone(&image, zone, &entries)).or_default() += 1;
                }
            }
        }
        for answer in [Ok(true), Ok(false), Err(45), Err(54)] {
            assert!(met.get(&answer).is_some_and(|&count| count > least), "{answer:?} {met:?}");
        }
    }
}

/// The answers that the zones of a case's images give, that named Mesh alone.
fn answers_of_case(name: &str) -> BTreeSet<Result<bool, u32>> {
    let number = PARENT_CASES.iter().position(|case| case.0 == name).unwrap();
    let mut met = BTreeSet::new();
    for index in 0..60 {
        let mut random = Random::new(7, index);
        let mut image = lawful(&mut random, SizeClass::Small);
        if parent_case(&mut image, &mut random, SizeClass::Small, number).is_none() {
            continue;
        }
        let zone = (0..image.nodes.len()).find(|&node| image.nodes[node].is_named("Mesh")).unwrap() as u64;
        let image = image.to_bytes();
        met.insert(parents_agree(&image, zone, &mut [0; 64]).map_err(|rejection| rejection.rule));
    }
    met
}

#[test]
fn cases_agree_or_not_as_they_say() {
    for (name, answer) in [
        ("parents that agree", Ok(true)),
        ("agreeing in several sections", Ok(true)),
        ("a section without parents", Ok(true)),
        ("an unused face without parents", Ok(true)),
        ("one cell on both sides", Ok(true)),
        ("the same numbers in two zones", Ok(true)),
        ("the greatest cells", Ok(true)),
        ("a second parent too many", Ok(false)),
        ("one of two parents is another cell", Ok(false)),
        ("a face of no cell", Ok(false)),
        ("the second left out", Ok(false)),
        ("another cell alone", Ok(false)),
        ("one cell twice", Ok(false)),
        ("one side left out", Ok(false)),
        ("under another label", Err(54)),
        ("no parents", Err(54)),
        ("nearly of that name", Err(54)),
        ("in a fixed or a MIXED section", Err(54)),
        ("a face as a parent", Err(39)),
        ("turned round", Err(39)),
    ] {
        assert_eq!(answers_of_case(name), BTreeSet::from([answer]), "{name}");
    }
    assert!(answers_of_case("a face used twice with one sign").contains(&Err(45)));
    assert!(answers_of_case("one section disagrees").contains(&Ok(false)));
}

#[test]
fn generated_parents_are_of_every_kind() {
    let (mut widths, mut sections, mut refused) = (BTreeSet::new(), BTreeSet::new(), 0);
    for index in 0..4_000 {
        let image = image(40, index, SizeClass::Small);
        refused += u64::from(validate(&image).is_err_and(|rejection| rejection.rule == 39));
        for zone in 0..check_table(&image).unwrap_or(0) {
            let entries = section_entries(&image, zone).unwrap_or_default();
            let faces: Vec<&Section> = entries.iter().filter(|entry| entry.element_type == 22).collect();
            let with = faces.iter().filter(|entry| entry.parents_width > 0).count();
            let cells = entries.iter().filter(|entry| entry.element_type == 23).count();
            widths.extend(faces.iter().map(|entry| entry.parents_width));
            sections.insert((with, faces.len() - with, cells));
        }
    }
    assert_eq!(widths, BTreeSet::from([0, 4, 8]));
    for kind in [(1, 0, 1), (1, 0, 2), (1, 1, 1), (2, 0, 1), (2, 0, 2), (0, 1, 1), (0, 2, 1)] {
        assert!(sections.contains(&kind), "{kind:?} {sections:?}");
    }
    assert!(refused > 100, "{refused}");
}

#[test]
fn parents_are_asked_for_and_refused() {
    let lines: Vec<String> = (0..264).flat_map(|index| queries(index, &image(9, index, SizeClass::Small))).collect();
    let count =
        |call: &str, answer: &str| lines.iter().filter(|line| line.starts_with(call) && line.contains(answer)).count();
    for answer in ["= parents ", "= refuse 40 0", "= refuse 41 0", "= refuse 54 0", "= refuse 39 ", "= refuse 3"] {
        assert!(count("parents ", answer) > 10, "parents {answer}");
    }
    for answer in ["= agrees 1", "= agrees 0", "= refuse 40 0", "= refuse 54 0", "= refuse 45 ", "= refuse 39 "] {
        assert!(count("agree ", answer) > 3, "agree {answer}");
        assert!(count("agree-into ", answer) > 3, "agree-into {answer}");
    }
    assert!(count("agree-into ", "= refuse 44 0 room") > 30);
    assert!(count("agree-into ", "= refuse 54 0 room 170 ") > 30);
}

#[test]
fn a_changed_parent_is_found() {
    let mut changed = 0;
    for index in 0..3_000 {
        let image = image(41, index, SizeClass::Small);
        for zone in 0..check_table(&image).unwrap_or(0) {
            for entry in section_entries(&image, zone).unwrap_or_default() {
                if entry.parents_width == 0 {
                    continue;
                }
                let (at, width) = (entry.parents_at as usize, entry.parents_width as usize);
                for place in 0..2 * (entry.last - entry.first + 1) as usize {
                    let mut other = image.clone();
                    other[at + width * (place + 1) - 1] ^= 0x80;
                    let rejection = validate(&other).unwrap_err();
                    assert_eq!((rejection.rule, rejection.node, rejection.entry), (39, entry.node, 0));
                    changed += 1;
                }
            }
        }
    }
    assert!(changed > 1_000, "{changed}");
}
