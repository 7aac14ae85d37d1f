//! MIXED sections of generated images, and the queries of them.

use std::collections::BTreeSet;

use super::*;
use reference::generate::image;
use reference::lawful::{lawful, SizeClass};
use reference::queries::queries;
use reference::random::Random;
use reference::table::Table;
use reference::{element_type, Section};

/// Shows every MIXED section of some lawful images, with its image and CellDimension.
fn lawful_sections(class: SizeClass, count: u64, mut see: impl FnMut(&[u8], i64, &Section)) {
    for index in 0..count {
        let image = lawful(&mut Random::new(20, index), class).to_bytes();
        let table = Table::read(&image).unwrap();
        for zone in 0..table.nodes.len() as u64 {
            let base = table.nodes[zone as usize].parent;
            for section in section_entries(&image, zone).unwrap_or_default() {
                if section.element_type == 20 {
                    see(&image, table.integers(base).get(0).unwrap(), &section);
                }
            }
        }
    }
}

#[test]
fn lawful_sections_are_of_every_kind() {
    let (mut kinds, mut types) = (BTreeSet::new(), BTreeSet::new());
    let (mut in_turn, mut same_size) = (0, 0);
    lawful_sections(SizeClass::Small, 3_000, |image, dimension, section| {
        kinds.insert((dimension, section.offsets_width, section.connectivity_width));
        let of = |number| element_type(image, &section.numbers(), number).unwrap();
        types.extend((section.first..=section.last).map(of));
        if section.last >= section.first + 2 {
            let [a, b, c] = [0, 1, 2].map(|k| of(section.first + k));
            in_turn += u64::from(a == c && a != b);
            same_size += u64::from([(7, 10), (10, 7), (8, 17), (17, 8)].contains(&(a, b)));
        }
    });
    assert_eq!(kinds.len(), 12, "{kinds:?}");
    assert_eq!(types.len(), 19, "{types:?}");
    assert!(in_turn > 50 && same_size > 5, "{in_turn} {same_size}");
}

#[test]
fn lawful_sections_have_long_runs() {
    let mut longest = 0;
    lawful_sections(SizeClass::Medium, 30, |image, _, section| {
        let types: Vec<u64> =
            (section.first..=section.last).map(|k| element_type(image, &section.numbers(), k).unwrap()).collect();
        longest = types.chunk_by(|a, b| a == b).map(|run| run.len()).max().unwrap().max(longest);
    });
    assert!(longest >= 8, "{longest}");
}

/// The queries `element-type` of an image: the twelve numbers, and the answer.
fn type_queries(index: u64, image: &[u8]) -> Vec<(Vec<u64>, String)> {
    let lines = queries(index, image);
    let asked = lines.iter().filter_map(|line| line.strip_prefix("element-type ")?.split_once(" = "));
    asked.map(|(query, answer)| (query.split(' ').map(|n| n.parse().unwrap()).collect(), answer.to_string())).collect()
}

#[test]
fn types_are_asked_for_and_refused() {
    let (mut met, mut by_mixed) = (BTreeSet::new(), BTreeSet::new());
    let mut by_stored_type = 0;
    for index in 0..528 {
        let image = image(12, index, SizeClass::Small);
        for (numbers, answer) in type_queries(index, &image) {
            let (mut section, element): ([u64; ENTRY_LENGTH], u64) =
                (numbers[..ENTRY_LENGTH].try_into().unwrap(), numbers[ENTRY_LENGTH]);
            met.insert(answer.clone());
            if section[1] == 20 {
                section[1] = 22;
                let readable = rule(element_type(&image, &section, element)) == 0;
                by_stored_type += u64::from(readable && answer == "refuse 43 0");
                by_mixed.insert(answer);
            }
        }
    }
    for answer in ["refuse 41 0", "refuse 43 0", "type 22", "type 23"] {
        assert!(met.contains(answer), "{answer}");
    }
    for (own_type, _) in LIST {
        assert!(by_mixed.contains(&format!("type {own_type}")), "{own_type}");
    }
    assert!(by_mixed.contains("refuse 41 0"));
    assert!(by_stored_type > 150, "{by_stored_type}");
}
