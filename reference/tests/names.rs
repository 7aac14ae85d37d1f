//! Name bytes (document 02, §3): the count by hand and by comparing every two siblings, and the refusals.

use reference::answers::name_bytes_line;
use reference::build::{Image, Node};
use reference::bytes::u32_at;
use reference::cases::{case, cases, tetrahedron};
use reference::generate::image;
use reference::lawful::{chain, SizeClass};
use reference::random::Random;
use reference::{check_table, name_bytes, validate};

/// The name bytes of an image that meets rules 1 to 18, from the bytes of its records, pair by pair.
fn pair_by_pair(image: &[u8]) -> u64 {
    let record = |node: usize| 32 + 84 * node;
    let name = |node: usize| &image[record(node)..record(node) + 32];
    let parent = |node: usize| u32_at(image, record(node) + 72);
    let mut sum = 0;
    for later in 1..u32_at(image, 8) as usize {
        for earlier in (1..later).filter(|&node| parent(node) == parent(later)) {
            let mut place = 0;
            while name(earlier)[place] == name(later)[place] {
                place += 1;
            }
            sum += place as u64 + 1;
        }
    }
    sum
}

/// A base, node 1, with foreign nodes of these names.
fn family(names: &[&str]) -> Image {
    let mut image = Image::with_root("r", "r");
    let base = image.add(0, Node::integers("Base", "CGNSBase_t", 4, &[2], &[3, 3]));
    for name in names {
        image.add(base, Node::empty(name, "Family_t"));
    }
    image
}

/// The name bytes of an image that is built.
fn bytes(image: &Image) -> u64 {
    name_bytes(&image.to_bytes()).unwrap()
}

/// The rule and node of the refusal; (0, 0) for none.
fn refusal(image: &[u8]) -> (u32, u64) {
    name_bytes(image).map_or_else(|r| (r.rule, r.node), |_| (0, 0))
}

#[test]
fn worked_cases() {
    let answers = [
        ("a", "bytes 88"),
        ("b", "refuse 1 0"),
        ("c", "refuse 4 0"),
        ("d", "bytes 0"),
        ("e", "bytes 88"),
        ("n3_root", "bytes 0"),
        ("n3_chain", "bytes 0"),
        ("n3_first_byte", "bytes 1"),
        ("n3_last_byte", "bytes 32"),
        ("n3_padding", "bytes 6"),
        ("n3_blanks", "bytes 10"),
        ("n3_ladder", "bytes 5984"),
        ("n3_prefixes", "bytes 5952"),
        ("n3_skipped", "bytes 14"),
        ("n3_mixed", "bytes 15"),
        ("n3_cousins", "bytes 17"),
        ("n3_zones", "bytes 336"),
        ("n3_no_types", "bytes 15"),
        ("n3_twin", "refuse 11 4"),
        ("n3_twins", "refuse 11 5"),
        ("n3_far_twin", "refuse 11 21"),
        ("n3_skipped_twin", "refuse 11 9"),
    ];
    for (name, answer) in answers {
        assert_eq!(name_bytes_line(&case(name)), answer, "case ({name})");
    }
    assert_eq!(cases().iter().filter(|(name, _)| name.starts_with("n3_")).count(), 17);
}

#[test]
fn the_tetrahedron_by_hand() {
    // CGNSLibraryVersion and Base: C, B
    let root = 1;
    // ZoneType, GridCoordinates, Faces, Cells: Z, G, F, C
    let zone = 6;
    // CoordinateX, CoordinateY, CoordinateZ
    let grid = 3 * 11;
    // ElementRange, ElementStartOffset, ElementConnectivity
    let section = 3 * 8;
    let image = case("a");
    assert_eq!(name_bytes(&image), Ok(root + zone + grid + 2 * section));
    assert_eq!(name_bytes(&image), Ok(pair_by_pair(&image)));
}

#[test]
fn a_root_alone() {
    let mut image = Image::with_root("r", "r");
    assert_eq!(bytes(&image), 0);
    image.add(0, Node::empty("r", "r"));
    assert_eq!(bytes(&image), 0);
}

#[test]
fn every_place() {
    let stem = "ABCDEFGHIJKLMNOPQRSTUVWXYZabcdef";
    for place in 1..=32 {
        for byte in 32..=126 {
            let mut image = family(&[stem, stem]);
            image.nodes[3].name[place - 1] = byte;
            let expected = match byte {
                b' ' if place == 1 => (9, 3),
                b'/' => (9, 3),
                _ if byte == stem.as_bytes()[place - 1] => (11, 3),
                _ => (0, 0),
            };
            assert_eq!(refusal(&image.to_bytes()), expected);
            if expected == (0, 0) {
                assert_eq!(bytes(&image), place as u64);
            }
        }
    }
}

#[test]
fn what_comes_behind_the_place_does_not_count() {
    assert_eq!(bytes(&family(&["Wall", "Well"])), 2);
    assert_eq!(bytes(&family(&["Wall", "We"])), 2);
    assert_eq!(bytes(&family(&["Wall  1", "Wall"])), 7);
    assert_eq!(bytes(&family(&["Wall", "Wall  1", "Wall 1"])), 7 + 6 + 6);
    assert_eq!(bytes(&family(&["A1", "B1", "A2", "B2"])), 4 + 2 + 2);
}

#[test]
fn the_order_of_siblings_does_not_count() {
    let names = ["Wall", "Wall1", "Inlet", "Wall10", "Wall2", "Inlets"];
    let expected = bytes(&family(&names));
    let mut random = Random::new(3, 1);
    for _ in 0..50 {
        let mut mixed = names;
        random.shuffle(&mut mixed);
        assert_eq!(bytes(&family(&mixed)), expected, "{mixed:?}");
    }
}

#[test]
fn only_siblings_count() {
    let mut image = family(&["Wall1", "Wall2"]);
    assert_eq!(bytes(&image), 5);
    // children of either, the names of uncles, of the parent and of each other among them
    for (parent, name) in [(2, "Wall2"), (3, "Wall1"), (2, "Base"), (3, "Wall2")] {
        image.add(parent, Node::empty(name, "UserDefinedData_t"));
    }
    assert_eq!(bytes(&image), 5 + 1 + 5);
    image.nodes[5].parent = 4;
    assert_eq!(bytes(&image), 5 + 1);
}

#[test]
fn skipped_nodes_count() {
    for (label, below) in [("UserDefinedData_t", "Zone_t"), ("Family_t", "Zone_t"), ("UserDefinedData_t", "Family_t")] {
        let mut image = tetrahedron();
        let above = image.add(2, Node::empty("Zone2", label));
        assert_eq!(bytes(&image), 88 + 5);
        for name in ["Zone1", "Zone2", "Zone3"] {
            image.add(above, Node::empty(name, below));
        }
        assert!(validate(&image.to_bytes()).is_ok());
        assert_eq!(bytes(&image), 88 + 5 + 15);
    }
}

#[test]
fn the_most_siblings() {
    // 4,095 names that agree up to one of the last two bytes
    let name =
        |k: usize| format!("{}{}{}", "n".repeat(30), (b'0' + (k / 64) as u8) as char, (b'0' + (k % 64) as u8) as char);
    let mut image = Image::with_root("r", "r");
    for k in 0..4095 {
        image.add(0, Node::empty(&name(k), "Family_t"));
    }
    // of 64 groups all but the last, which has 63, have 64 names
    let alike = 63 * (64 * 63 / 2) + 63 * 62 / 2;
    assert_eq!(bytes(&image), 31 * (4095 * 4094 / 2) + alike);
    image.nodes[4095].name = image.nodes[1].name;
    assert_eq!(refusal(&image.to_bytes()), (11, 4095));
}

/// Case (a) with one change to its nodes.
fn changed(change: impl Fn(&mut Image)) -> (u32, u64) {
    let mut image = tetrahedron();
    change(&mut image);
    refusal(&image.to_bytes())
}

/// Case (a) with one word of the header replaced.
fn with_word(place: usize, word: u32) -> (u32, u64) {
    let mut bytes = case("a");
    bytes[4 * place..4 * place + 4].copy_from_slice(&word.to_le_bytes());
    refusal(&bytes)
}

#[test]
fn refusals() {
    assert_eq!(refusal(&[0; 31]), (1, 0));
    assert_eq!(with_word(0, 2), (2, 0));
    assert_eq!(with_word(1, 1845), (3, 0));
    assert_eq!(with_word(2, 0), (4, 0));
    assert_eq!(with_word(5, 49_153), (5, 0));
    assert_eq!(with_word(7, 255), (6, 0));
    assert_eq!(changed(|i| i.nodes[5].parent = 5), (7, 5));
    assert_eq!(refusal(&chain(&mut Random::new(1, 1), 33).to_bytes()), (8, 33));
    assert_eq!(changed(|i| i.nodes[3].name[31] = b'/'), (9, 3));
    assert_eq!(changed(|i| i.nodes[3].label[9] = 127), (10, 3));
    assert_eq!(changed(|i| i.nodes[8].name = i.nodes[6].name), (11, 8));
    assert_eq!(changed(|i| i.nodes[6].data_type = *b"LK"), (12, 6));
    assert_eq!(changed(|i| i.nodes[6].data_type = *b"lk"), (13, 6));
    assert_eq!(changed(|i| i.nodes[6].dimensions.clear()), (14, 6));
    assert_eq!(changed(|i| i.nodes[6].first_word = Some(99)), (15, 6));
    assert_eq!(changed(|i| i.nodes[6].dimensions = vec![5]), (16, 6));
    assert_eq!(changed(|i| i.nodes[6].data_offset = Some(0)), (17, 6));
    assert_eq!(changed(|i| i.trailing_data.push(0)), (18, 17));
}

#[test]
fn rules_beside_rule_11() {
    let twin = |image: &mut Image| image.nodes[8].name = image.nodes[6].name;
    let with = |change: fn(&mut Image)| {
        changed(|image| {
            twin(image);
            change(image);
        })
    };
    assert_eq!(with(|i| i.nodes[8].label[0] = b' '), (10, 8));
    assert_eq!(with(|i| i.nodes[8].data_type = *b"LK"), (11, 8));
    assert_eq!(with(|i| i.nodes[7].data_type = *b"LK"), (12, 7));
    assert_eq!(with(|i| i.nodes[9].parent = 9), (11, 8));
    assert_eq!(with(|i| i.nodes[8].parent = 9), (7, 8));
    assert_eq!(with(|i| i.nodes[8].parent = 7), (0, 0));
    assert_eq!(with(|i| i.nodes[7].name = i.nodes[6].name), (11, 7));
}

#[test]
fn no_rule_from_20_on() {
    for (name, image) in cases() {
        let answered = name_bytes(&image);
        match validate(&image) {
            Err(rejection) if rejection.rule < 20 => assert_eq!(answered, Err(rejection), "case ({name})"),
            _ => assert_eq!(answered, Ok(pair_by_pair(&image)), "case ({name})"),
        }
    }
}

/// Holds the answers on so many images of a run against the count pair by pair and the refusals by rules 1 to 18; answers
/// the rules that the verdicts name.
fn check_run(seed: u64, count: u64, class: SizeClass) -> Vec<u32> {
    let mut met = Vec::new();
    for index in 0..count {
        let image = image(seed, index, class);
        match check_table(&image) {
            Ok(_) => assert_eq!(name_bytes(&image), Ok(pair_by_pair(&image)), "{class:?} {index}"),
            Err(rejection) => assert_eq!(name_bytes(&image), Err(rejection), "{class:?} {index}"),
        }
        met.extend(validate(&image).err().map(|rejection| rejection.rule));
    }
    met.sort_unstable();
    met.dedup();
    met
}

#[test]
fn generated_images() {
    let rules: Vec<u32> = (1..=39).filter(|rule| ![19, 22].contains(rule)).collect();
    assert_eq!(check_run(11, 1_320, SizeClass::Small), rules);
    assert_eq!(check_run(12, 264, SizeClass::Medium), rules);
    check_run(13, 264, SizeClass::Large);
}
