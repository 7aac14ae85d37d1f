//! States that no call answered.

use reference::addition::Addition;
use reference::writer::{add, finish, start, State};

use super::{refusal, Begun, JUNK};

/// A root of type MT.
fn root() -> Addition {
    Begun::case_a(0).nodes[0].clone()
}

#[test]
fn needed_room_is_exact() {
    let all = State::of([u32::MAX; 6]);
    assert_eq!(all.needed(), 32 + 93 * u64::from(u32::MAX));
    for state in [
        all,
        State { node_count: 1 << 30, ..State::default() },
        State { dimension_words: 1 << 29, ..State::default() },
        State { node_count: 1, data_length: u32::MAX - 115, ..State::default() },
    ] {
        assert!(state.needed() >= 1 << 32);
        let mut room = vec![JUNK; 4096];
        assert_eq!(refusal(add(&state, &root(), &mut room)), (46, 0));
        assert_eq!(refusal(finish(&state, &room)), (46, 0));
        assert!(room.iter().all(|&byte| byte == JUNK));
    }
}

#[test]
fn counts_at_and_past_n() {
    let begun = Begun::case_a(17);
    for nodes in [17, 18, 4096, u32::MAX] {
        let state = State { nodes, ..begun.state };
        assert_eq!(refusal(add(&state, &root(), &mut begun.room.clone())), (50, 0));
        assert_eq!(finish(&state, &begun.room), Ok(1844));
    }
    for (words, bytes) in [(0, 0), (u32::MAX, u32::MAX)] {
        assert_eq!(finish(&State { words, bytes, ..begun.state }, &begun.room), Ok(1844));
    }
    assert_eq!(refusal(finish(&State { nodes: 16, ..begun.state }, &begun.room)), (51, 0));
}

#[test]
fn no_nodes_stated() {
    let state = State::default();
    assert_eq!(refusal(add(&state, &root(), &mut [JUNK; 32])), (50, 0));
    assert_eq!(refusal(add(&state, &root(), &mut [JUNK; 31])), (46, 0));
    assert_eq!(refusal(finish(&state, &[JUNK; 31])), (46, 0));
    assert_eq!(refusal(finish(&state, &[JUNK; 40])), (2, 0));
    assert_eq!(refusal(finish(&state, &reference::cases::case("c"))), (4, 0));
}

#[test]
fn sums_past_what_was_stated() {
    let mut begun = Begun::case_a(5);
    let right = begun.state;
    for (words, bytes, told) in [
        (17, 256, (15, 5)),
        (u32::MAX, u32::MAX, (15, 5)),
        (16, 257, (17, 5)),
        (16, u32::MAX, (17, 5)),
        (16, 256, (0, 0)),
    ] {
        begun.state = State { words, bytes, ..right };
        assert_eq!(begun.changed(|_| ()), told);
    }
    begun.state = State { words: u32::MAX, ..right };
    assert_eq!(begun.changed(|node| node.data = vec![0]), (15, 5));
    begun.state = State { bytes: u32::MAX, ..right };
    assert_eq!(begun.changed(|node| node.data = vec![0]), (16, 5));
}

#[test]
fn a_record_written_again_or_left_out() {
    let mut begun = Begun::case_a(9);
    begun.state = State { nodes: 8, ..begun.state };
    assert_eq!(begun.changed(|node| (node.dimensions, node.data) = (vec![1], vec![0; 8])), (0, 0));
    assert_eq!(begun.state.numbers(), [17, 16, 256, 9, 9, 140]);
    begun.state = State { nodes: 11, ..begun.state };
    // record 9 is zeros: its parent is 0, its own name no lawful one
    assert_eq!(begun.changed(|_| ()), (0, 0));
    assert_eq!(begun.state.nodes, 12);
}

#[test]
fn more_nodes_than_an_image_has() {
    let mut room = vec![0; 32 + 84 * 5000];
    let state = State { node_count: 5000, ..State::default() };
    let mut answered = add(&state, &root(), &mut room).unwrap();
    assert_eq!(answered, State { nodes: 1, ..state });
    answered.nodes = 4999;
    let child = Addition { parent: 0, ..root() };
    assert_eq!(refusal(add(&answered, &child, &mut room.clone())), (0, 0));
    let of_none = Addition { parent: 4999, ..root() };
    assert_eq!(refusal(add(&answered, &of_none, &mut room)), (7, 4999));
    let below = Addition { parent: 4998, ..root() };
    answered = add(&answered, &below, &mut room).unwrap();
    assert_eq!(answered.nodes, 5000);
    assert_eq!(refusal(finish(&answered, &room)), (2, 0));
}

#[test]
fn another_image_of_the_same_length() {
    let begun = Begun::case_a(17);
    let state = State { node_count: 1, dimension_words: 0, data_length: 1844 - 116, nodes: 1, ..begun.state };
    assert_eq!(finish(&state, &begun.room), Ok(1844));
}

#[test]
fn a_start_does_not_ask_for_a_state() {
    let mut room = [JUNK; 116];
    let state = start(1, 0, 0, &mut room).unwrap();
    let state = add(&state, &root(), &mut room).unwrap();
    assert_eq!(finish(&state, &room), Ok(116));
}
