//! The writer (document 02, §8): what it writes, what it refuses, rooms and states of any kind, and runs made at random.

mod asked;
mod finishes;
mod generated;
mod refusals;
mod rooms;
mod states;
mod written;

use reference::addition::{additions, Addition};
use reference::cases::tetrahedron;
use reference::writer::{add, finish, start, State};
use reference::Rejection;

/// A byte that no call leaves where it writes zeros.
const JUNK: u8 = 0xc3;

/// The nodes of case (a) and what a start states for them.
fn case_a() -> ([u64; 3], Vec<Addition>) {
    additions(&tetrahedron().to_bytes()).unwrap()
}

/// Rule and node of a refusal; (0, 0) for none.
fn refusal<T>(answer: Result<T, Rejection>) -> (u32, u64) {
    answer.map_or_else(|rejection| (rejection.rule, rejection.node), |_| (0, 0))
}

/// A room, and the state after a start in it and the first nodes.
struct Begun {
    room: Vec<u8>,
    state: State,
    nodes: Vec<Addition>,
}

impl Begun {
    /// A start by what is stated, with so many bytes beyond the needed room, and the first nodes of case (a).
    fn stated([nodes, words, bytes]: [u64; 3], beyond: usize, count: usize) -> Begun {
        let needed = 32 + 84 * nodes + 8 * words + bytes;
        let mut room = vec![JUNK; needed as usize + beyond];
        let state = start(nodes, words, bytes, &mut room).unwrap();
        let mut begun = Begun { room, state, nodes: case_a().1 };
        for number in 0..count {
            begun.add_right(number);
        }
        begun
    }

    /// The first nodes of case (a), rightly stated.
    fn case_a(count: usize) -> Begun {
        Begun::stated(case_a().0, 0, count)
    }

    /// Adds a node of case (a), which is not refused.
    fn add_right(&mut self, number: usize) {
        self.state = add(&self.state, &self.nodes[number], &mut self.room).unwrap();
    }

    /// What adding the next node of case (a) after a change to it gives; a refusal leaves the room as it was.
    fn changed(&mut self, change: impl Fn(&mut Addition)) -> (u32, u64) {
        let mut addition = self.nodes[self.state.nodes as usize].clone();
        change(&mut addition);
        self.adding(&addition)
    }

    /// What an addition gives; a refusal leaves the room as it was.
    fn adding(&mut self, addition: &Addition) -> (u32, u64) {
        let before = self.room.clone();
        let answer = add(&self.state, addition, &mut self.room);
        if let Ok(state) = answer {
            self.state = state;
        } else {
            assert!(self.room == before);
        }
        refusal(answer)
    }

    fn finishing(&self) -> (u32, u64) {
        refusal(finish(&self.state, &self.room))
    }
}
