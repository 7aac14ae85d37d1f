//! The queries of the writer: every refusal is asked for, and the numbers of a query are those of the call.

use std::collections::BTreeMap;

use reference::addition::additions;
use reference::cases::tetrahedron;
use reference::generate::image;
use reference::lawful::SizeClass;
use reference::queries::queries;
use reference::writer_calls::{Places, Room};

/// How often each rule was met by the queries of a call; 0 for an answer.
type Met = BTreeMap<u32, u64>;

#[test]
fn every_refusal() {
    let mut met: BTreeMap<String, Met> = BTreeMap::new();
    for index in 0..132 {
        for line in queries(index, &image(9, index, SizeClass::Small)) {
            let (call, answer) = line.split_once(" = ").unwrap();
            let name = call.split(' ').next().unwrap();
            let rule = answer.strip_prefix("refuse ").map_or("0", |rest| rest.split(' ').next().unwrap());
            *met.entry(name.to_string()).or_default().entry(rule.parse().unwrap()).or_default() += 1;
            if name == "add" {
                assert!(rule == "0" || answer.ends_with(" room"), "{line}");
            }
        }
    }
    let rules = |call: &str| met[call].keys().copied().collect::<Vec<u32>>();
    assert_eq!(rules("start"), [0, 1, 4, 5, 46]);
    assert_eq!(rules("add"), [0].into_iter().chain(7..=17).chain([46, 50]).collect::<Vec<u32>>());
    assert_eq!(rules("finish"), [0].into_iter().chain(2..=18).chain([46, 51]).collect::<Vec<u32>>());
    assert!(met["add"][&0] > 900 && met["finish"][&0] > 500, "{met:?}");
}

#[test]
fn a_node_at_its_places() {
    let image = tetrahedron().to_bytes();
    let (_, nodes) = additions(&image).unwrap();
    let places = Places::of([32 + 84 * 10, 12, 12, 2, 32 + 84 * 17 + 8 * 9, 1, 9, 1728, 8]);
    assert_eq!(places.addition(&image).padded(), nodes[10]);
    assert_eq!(places.numbers(), [872, 12, 12, 2, 1532, 1, 9, 1728, 8]);
    let beyond = [
        Places { texts: 1_780, label: 33, ..places },
        Places { texts: u64::MAX, label: 1, ..places },
        Places { words: u64::MAX, rank: u64::MAX, ..places },
        Places { data: 1_840, ..places },
    ];
    let [label, texts, words, data] = beyond.map(|places| places.addition(&image));
    assert!(label.name.len() == 12 && label.label.is_empty() && label.data_type.is_empty());
    assert!(texts.name.is_empty() && texts.label.is_empty() && texts.data_type.is_empty());
    assert!(words.dimensions.is_empty() && data.data.is_empty());
}

#[test]
fn a_room_of_an_image() {
    let bytes = |kept, length| Room { kept, length }.bytes(&[1, 2, 3]);
    assert_eq!(bytes(2, 4), [1, 2, 170, 170]);
    assert_eq!(bytes(9, 4), [1, 2, 3, 170]);
    assert_eq!(bytes(3, 2), [1, 2]);
    assert_eq!(bytes(0, 1), [170]);
}
