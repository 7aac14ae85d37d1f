//! Rooms of any length, and rooms that the caller alters between calls.

use reference::writer::{add, finish, start};

use super::{case_a, refusal, Begun, JUNK};

/// Writes the parent of a record.
fn set_parent(room: &mut [u8], node: usize, parent: u32) {
    let at = 32 + 84 * node + 72;
    room[at..at + 4].copy_from_slice(&parent.to_le_bytes());
}

#[test]
fn bytes_beyond_the_needed_room_stay() {
    let image = Begun::case_a(17).room;
    for beyond in [1, 2, 83, 4096] {
        let begun = Begun::stated(case_a().0, beyond, 17);
        assert_eq!(begun.finishing(), (0, 0));
        assert_eq!(finish(&begun.state, &begun.room), Ok(1844));
        assert!(begun.room[..1844] == image[..]);
        assert!(begun.room[1844..].iter().all(|&byte| byte == JUNK));
    }
}

#[test]
fn the_whole_needed_room_is_asked_for() {
    let mut begun = Begun::case_a(1);
    let node = begun.nodes[1].clone();
    for length in [0, 31, 32, 200, 1843] {
        let before = begun.room.clone();
        assert_eq!(refusal(add(&begun.state, &node, &mut begun.room[..length])), (46, 0));
        assert!(begun.room == before);
    }
    begun.add_right(1);
}

#[test]
fn a_second_start_begins_again() {
    let mut begun = Begun::case_a(9);
    begun.state = start(17, 16, 256, &mut begun.room).unwrap();
    for number in 0..17 {
        begun.add_right(number);
    }
    assert_eq!(begun.finishing(), (0, 0));
}

#[test]
fn a_parent_above_breaks_seven() {
    // node 6, CoordinateX, is below 5, 3, 2 and 0
    for (node, parent) in [(5, 5), (5, 6), (5, u32::MAX), (3, 3), (2, 2), (2, 1 << 31), (0, 0), (0, u32::MAX - 1)] {
        let mut begun = Begun::case_a(6);
        set_parent(&mut begun.room, node, parent);
        assert_eq!(begun.changed(|_| ()), (7, 6), "{node} {parent}");
        let right = [u32::MAX, 0, 0, 2, 3, 3][node];
        set_parent(&mut begun.room, node, right);
        assert_eq!(begun.changed(|_| ()), (0, 0));
    }
    // nodes 1 and 4 are not above it
    for node in [1, 4] {
        let mut begun = Begun::case_a(6);
        set_parent(&mut begun.room, node, 9);
        assert_eq!(begun.changed(|_| ()), (0, 0));
    }
}

#[test]
fn depth_by_the_records_in_the_room() {
    let mut begun = Begun::stated([50, 0, 0], 0, 1);
    let root = begun.nodes[0].clone();
    let below = |number: u64, parent: u64| {
        let mut node = root.clone();
        (node.name, node.parent) = (number.to_string().into_bytes(), parent);
        node
    };
    for number in 1..45 {
        assert_eq!(begun.adding(&below(number, 0)), (0, 0));
    }
    for number in 1..45 {
        set_parent(&mut begun.room, number, number as u32 - 1);
    }
    for parent in [32, 33, 40, 44] {
        assert_eq!(begun.adding(&below(45, parent)), (8, 45));
    }
    for (node, parent) in [(0, 0), (1, 1), (7, 8), (32, 32)] {
        set_parent(&mut begun.room, node, parent);
        assert_eq!(begun.adding(&below(45, 40)), (7, 45));
        set_parent(&mut begun.room, node, if node == 0 { u32::MAX } else { node as u32 - 1 });
    }
    assert_eq!(begun.adding(&below(45, 31)), (0, 0));
    set_parent(&mut begun.room, 20, 0);
    assert_eq!(begun.adding(&below(46, 44)), (0, 0));
}

#[test]
fn names_by_the_records_in_the_room() {
    let mut begun = Begun::case_a(7);
    let at = 32 + 84 * 6;
    let name = begun.room[at..at + 32].to_vec();
    begun.room[at..at + 32].copy_from_slice(&begun.nodes[7].name);
    assert_eq!(begun.changed(|_| ()), (11, 7));
    set_parent(&mut begun.room, 6, 3);
    assert_eq!(begun.changed(|_| ()), (0, 0));
    assert_eq!(begun.changed(|node| node.name = name.clone()), (0, 0));
}

#[test]
fn nothing_else_in_the_room_is_asked() {
    let mut begun = Begun::case_a(6);
    let kept: Vec<u8> = (0..6).flat_map(|node| begun.room[32 + 84 * node + 72..][..4].to_vec()).collect();
    let length = begun.room.len();
    begun.room[..length].fill(JUNK);
    for (node, parent) in kept.chunks(4).enumerate() {
        begun.room[32 + 84 * node + 72..][..4].copy_from_slice(parent);
    }
    for number in 6..17 {
        begun.add_right(number);
    }
    assert_eq!(begun.finishing(), (2, 0));
}
