//! Every refusal of a start and of an addition, in the papers' order.

use reference::addition::Addition;
use reference::writer::start;

use super::{case_a, refusal, Begun, JUNK};

#[test]
fn starts() {
    let mut room = vec![JUNK; 1000];
    let mut starting = |nodes, words, bytes| {
        let answer = start(nodes, words, bytes, &mut room);
        assert!(answer.is_ok() || room.iter().all(|&byte| byte == JUNK));
        refusal(answer)
    };
    for nodes in [0, 4097, 1 << 32, (1 << 32) + 1, u64::MAX] {
        assert_eq!(starting(nodes, 49_153, u64::MAX), (4, 0));
    }
    for words in [49_153, 1 << 32, 1 << 61, u64::MAX] {
        assert_eq!(starting(1, words, u64::MAX), (5, 0));
    }
    for bytes in [16_777_101, (1 << 32) - 116, 1 << 32, u64::MAX - 115, u64::MAX] {
        assert_eq!(starting(1, 0, bytes), (1, 0));
    }
    assert_eq!(starting(4096, 49_152, 16_777_216 - 737_312 + 1), (1, 0));
    for (nodes, words, bytes) in [(4096, 49_152, 16_777_216 - 737_312), (1, 0, 16_777_100), (1, 0, 885), (1, 111, 0)] {
        assert_eq!(starting(nodes, words, bytes), (46, 0));
    }
    assert_eq!(starting(1, 0, 884), (0, 0));
    assert_eq!(refusal(start(1, 0, 0, &mut [])), (46, 0));
}

#[test]
fn the_longest_image() {
    let mut room = vec![JUNK; 16_777_216];
    assert_eq!(refusal(start(1, 0, 16_777_100, &mut room[1..])), (46, 0));
    let state = start(1, 0, 16_777_100, &mut room).unwrap();
    assert_eq!(state.needed(), 16_777_216);
}

#[test]
fn parents() {
    let none = u64::from(u32::MAX);
    let mut begun = Begun::case_a(0);
    for parent in [0, 1, none - 1, none + 1, (1 << 32) + none, u64::MAX] {
        assert_eq!(begun.changed(|node| node.parent = parent), (7, 0));
    }
    begun.add_right(0);
    for parent in [1, 2, none, 1 << 32, (1 << 32) + none, u64::MAX] {
        assert_eq!(begun.changed(|node| node.parent = parent), (7, 1));
    }
}

/// A node of type MT.
fn empty(name: &str, parent: u64) -> Addition {
    Addition { name: name.into(), label: b"L".to_vec(), data_type: b"MT".to_vec(), parent, ..Addition::default() }
}

#[test]
fn depth() {
    let mut begun = Begun::stated([35, 0, 0], 0, 0);
    assert_eq!(begun.adding(&empty("r", u64::from(u32::MAX))), (0, 0));
    for parent in 0..32 {
        assert_eq!(begun.adding(&empty("down", parent)), (0, 0));
    }
    assert_eq!(begun.adding(&empty("", 32)), (8, 33));
    assert_eq!(begun.adding(&empty("", 33)), (7, 33));
    assert_eq!(begun.adding(&empty("more", 31)), (0, 0));
    assert_eq!(begun.adding(&empty("more", 30)), (0, 0));
    assert_eq!(begun.finishing(), (0, 0));
}

#[test]
fn names_and_labels() {
    let mut begun = Begun::case_a(3);
    let unlawful = ["", " ", " a", "a\0", "a\u{1f}", "a\u{7f}", "é", "                                "];
    let long = ["x".repeat(33), "x".repeat(32) + " ", " ".repeat(400)];
    for text in unlawful.into_iter().chain(long.iter().map(String::as_str)) {
        assert_eq!(begun.changed(|node| node.name = text.into()), (9, 3), "{text:?}");
        assert_eq!(begun.changed(|node| node.label = text.into()), (10, 3), "{text:?}");
    }
    for text in ["/", "a/b", "Zone1/"] {
        assert_eq!(begun.changed(|node| node.name = text.into()), (9, 3));
    }
    for text in ["/", "~", "x x", &"x".repeat(32)] {
        let mut begun = Begun::case_a(3);
        assert_eq!(begun.changed(|node| node.label = text.into()), (0, 0));
    }
}

#[test]
fn siblings() {
    let mut begun = Begun::case_a(8);
    for name in ["CoordinateX", "CoordinateY", "CoordinateX  ", &("CoordinateX".to_owned() + &" ".repeat(21))] {
        assert_eq!(begun.changed(|node| node.name = name.into()), (11, 8));
    }
    assert_eq!(begun.changed(|node| (node.name, node.parent) = (b"Base".to_vec(), 0)), (11, 8));
    assert_eq!(begun.changed(|node| node.name = b"coordinateX".to_vec()), (0, 0));
    let mut begun = Begun::case_a(8);
    assert_eq!(begun.changed(|node| node.name = b"Base".to_vec()), (0, 0));
}

#[test]
fn data_types() {
    let mut begun = Begun::case_a(6);
    assert_eq!(begun.changed(|node| node.data_type = b"LK".to_vec()), (12, 6));
    for data_type in ["", "R", "R8 ", "LK ", "lk", "r8", "R2", "8R", "\0\0", "R8\0"] {
        assert_eq!(begun.changed(|node| node.data_type = data_type.into()), (13, 6));
    }
}

#[test]
fn ranks() {
    let mut begun = Begun::case_a(5);
    for rank in [1, 12, 65_536] {
        assert_eq!(begun.changed(|node| node.dimensions = vec![1; rank]), (14, 5));
    }
    begun.add_right(5);
    for rank in [0, 13, 200, 65_536, 65_537] {
        assert_eq!(begun.changed(|node| node.dimensions.resize(rank, 1)), (14, 6));
    }
}

#[test]
fn words_and_data_past_what_was_stated() {
    let (mut numbers, _) = case_a();
    numbers[1] = 4;
    let mut begun = Begun::stated(numbers, 0, 4);
    assert_eq!(begun.changed(|node| node.dimensions = vec![12, 1]), (15, 4));
    assert_eq!(begun.changed(|node| node.dimensions = vec![0, 0, 0]), (15, 4));
    assert_eq!(begun.changed(|_| ()), (15, 4));
    begun.adding(&empty("ZoneType", 3));
    assert_eq!(begun.state.nodes, 5);

    let mut begun = Begun::case_a(16);
    assert_eq!(begun.changed(|node| (node.dimensions, node.data) = (vec![5], vec![0; 20])), (17, 16));
    assert_eq!(begun.changed(|node| (node.dimensions, node.data) = (vec![1 << 40], vec![0; 20])), (16, 16));
    assert_eq!(begun.changed(|_| ()), (0, 0));
}

#[test]
fn products() {
    let mut begun = Begun::case_a(6);
    let dimensions: [&[u64]; 12] = [
        &[0],
        &[3],
        &[5],
        &[4, 0],
        &[(1 << 61) + 4],
        &[(1 << 32) + 4],
        &[(1 << 29) + 4],
        &[1 << 32, 1 << 32],
        &[(1 << 32) + 1, (1 << 32) + 1, 4],
        &[0xaaaa_aaaa_aaaa_aaab, 12],
        &[u64::MAX, u64::MAX, 4],
        &[u64::MAX; 11],
    ];
    for list in dimensions {
        assert_eq!(begun.changed(|node| node.dimensions = list.to_vec()), (16, 6), "{list:?}");
    }
    assert_eq!(0xaaaa_aaaa_aaaa_aaabu64.wrapping_mul(12), 4);
    for length in [0, 31, 33, 4] {
        assert_eq!(begun.changed(|node| node.data.resize(length, 0)), (16, 6));
    }
    assert_eq!(begun.changed(|node| (node.dimensions, node.data) = (vec![0], Vec::new())), (16, 6));
    let mut begun = Begun::case_a(5);
    assert_eq!(begun.changed(|node| node.data = vec![0]), (16, 5));
}

#[test]
fn the_lowest_rule_first() {
    let mut begun = Begun::case_a(8);
    let mut node = begun.nodes[8].clone();
    (node.data_type, node.dimensions, node.data) = (b"C1".to_vec(), vec![4096], vec![0; 4096]);
    assert_eq!(begun.adding(&node), (17, 8));
    node.dimensions = vec![4095];
    assert_eq!(begun.adding(&node), (16, 8));
    begun.state.words = 16;
    assert_eq!(begun.adding(&node), (15, 8));
    node.dimensions.resize(13, 0);
    assert_eq!(begun.adding(&node), (14, 8));
    node.data_type = b"XX".to_vec();
    assert_eq!(begun.adding(&node), (13, 8));
    node.data_type = b"LK".to_vec();
    assert_eq!(begun.adding(&node), (12, 8));
    node.name = b"CoordinateX".to_vec();
    assert_eq!(begun.adding(&node), (11, 8));
    node.label.clear();
    assert_eq!(begun.adding(&node), (10, 8));
    node.name.push(b'/');
    assert_eq!(begun.adding(&node), (9, 8));
    node.parent = 8;
    assert_eq!(begun.adding(&node), (7, 8));
    begun.state.nodes = 17;
    assert_eq!(begun.adding(&node), (50, 0));
    begun.room.pop();
    assert_eq!(begun.adding(&node), (46, 0));
}

#[test]
fn a_refused_addition_and_then_the_right_one() {
    let mut begun = Begun::case_a(0);
    for number in 0..17 {
        assert_eq!(begun.changed(|node| node.parent = 1 << 32), (7, number));
        assert_eq!(begun.changed(|node| node.name.clear()), (9, number));
        assert_eq!(begun.changed(|node| node.data.push(0)), (16, number));
        begun.add_right(number as usize);
    }
    assert_eq!(begun.adding(&empty("more", 0)), (50, 0));
    assert_eq!(begun.finishing(), (0, 0));
    assert_eq!(begun.room, reference::cases::case("a"));
    assert_eq!(begun.adding(&empty("more", 0)), (50, 0));
}
