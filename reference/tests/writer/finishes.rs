//! Refusals of a finish: 46, 51, and rules 1 to 18 of the needed room.

use reference::build::signed_bytes;
use reference::writer::{finish, State};

use super::{case_a, refusal, Begun};

#[test]
fn too_early_or_with_too_little_room() {
    for count in 0..17 {
        let begun = Begun::case_a(count);
        assert_eq!(begun.finishing(), (51, 0));
        assert_eq!(refusal(finish(&begun.state, &begun.room[1..])), (46, 0));
    }
    let begun = Begun::case_a(17);
    assert_eq!(refusal(finish(&begun.state, &begun.room[1..])), (46, 0));
    assert_eq!(refusal(finish(&begun.state, &[])), (46, 0));
}

#[test]
fn words_or_data_left_over() {
    let (numbers, _) = case_a();
    for place in [1, 2] {
        let mut stated = numbers;
        stated[place] += 1;
        assert_eq!(Begun::stated(stated, 0, 17).finishing(), (18, 17));
        assert_eq!(Begun::stated(stated, 9, 17).finishing(), (18, 17));
    }
    let mut stated = numbers;
    stated[0] = 16;
    assert_eq!(Begun::stated(stated, 0, 16).finishing(), (18, 16));
}

#[test]
fn rooms_altered_before_the_finish() {
    // of node 3, Zone1: its record is at 284
    let edits: [(usize, &[u8], (u32, u64)); 18] = [
        (0, &[2], (2, 0)),
        (4, &[0], (3, 0)),
        (8, &[0], (4, 0)),
        (21, &[0xff], (5, 0)),
        (12, &[33], (6, 0)),
        (28, &[1], (6, 0)),
        (284 + 72, &[3], (7, 3)),
        (32 + 72, &[0], (7, 0)),
        (284, b"/", (9, 3)),
        (316, b" ", (10, 3)),
        (32 + 84 * 7, b"CoordinateX", (11, 7)),
        (284 + 64, b"LK", (12, 3)),
        (284 + 64, b"I2", (13, 3)),
        (284 + 66, &[13], (14, 3)),
        (284 + 68, &[1], (15, 3)),
        (284 + 80, &[0], (16, 3)),
        (284 + 76, &[0], (17, 3)),
        (32 + 84 * 16 + 64, b"MT\0\0", (16, 16)),
    ];
    for (at, bytes, told) in edits {
        let mut begun = Begun::case_a(17);
        begun.room[at..at + bytes.len()].copy_from_slice(bytes);
        let before = begun.room.clone();
        assert_eq!(begun.finishing(), told, "{at}");
        assert!(begun.room == before);
    }
}

#[test]
fn a_room_made_too_deep() {
    let mut begun = Begun::stated([40, 0, 0], 0, 1);
    for number in 1..40u64 {
        let mut node = begun.nodes[0].clone();
        (node.name, node.parent) = (number.to_string().into_bytes(), 0);
        assert_eq!(begun.adding(&node), (0, 0));
    }
    assert_eq!(begun.finishing(), (0, 0));
    for number in 1..40 {
        let at = 32 + 84 * number + 72;
        begun.room[at..at + 4].copy_from_slice(&signed_bytes(4, &[number as i64 - 1]));
    }
    assert_eq!(begun.finishing(), (8, 33));
}

#[test]
fn longer_than_an_image() {
    let room = vec![0; 16_777_217];
    let state = State { node_count: 1, data_length: 16_777_101, nodes: 1, ..State::default() };
    assert_eq!(state.needed(), 16_777_217);
    assert_eq!(refusal(finish(&state, &room)), (1, 0));
    assert_eq!(refusal(finish(&state, &room[1..])), (46, 0));
    let state = State { data_length: 16_777_100, ..state };
    assert_eq!(refusal(finish(&state, &room)), (2, 0));
}
