//! Runs of the writer (document 02, §8) made at random: right ones with refused calls between the right additions, wrongly
//! stated ones, rooms that the caller alters between calls, made-up states and deep rooms.

mod alter;
mod damage;
mod kinds;
mod limits;
mod maker;
mod states;
mod trees;

use crate::addition::Addition;
use crate::rejection::Rejection;
use crate::writer::{add, finish, start, State};

pub use kinds::run;
pub use limits::limit_runs;

/// A step of a run: a call, or what the caller does between calls.
#[derive(Clone, Debug)]
pub enum Step {
    /// N, D and the data length.
    Start([u64; 3]),
    Add(Addition),
    Finish,
    /// Bytes of the room are changed.
    Alter {
        at: usize,
        bytes: Vec<u8>,
    },
    /// Another state is given to the next call.
    State(State),
    /// From now on the room is lent up to this length.
    Lend(usize),
}

/// A run of the writer.
#[derive(Clone, Debug)]
pub struct Run {
    /// The room before the first step; the whole of it is lent.
    pub room: Vec<u8>,
    pub steps: Vec<Step>,
    /// The image that the last finish answers, where it is known beforehand.
    pub image: Option<Vec<u8>>,
}

/// The caller of a run: the room, how much of it is lent, and the state answered last.
#[derive(Clone, Debug)]
pub struct Caller {
    pub room: Vec<u8>,
    pub lent: usize,
    pub state: State,
}

impl Caller {
    /// The caller before the first step, with a state that no call answered.
    pub fn of(room: &[u8]) -> Caller {
        Caller { room: room.to_vec(), lent: room.len(), state: State::default() }
    }

    /// Takes a step. Of a call the answer: the length of a finish, else 0, or the refusal.
    pub fn step(&mut self, step: &Step) -> Option<Result<u64, Rejection>> {
        let room = &mut self.room[..self.lent];
        let answer = match step {
            &Step::Start([nodes, words, bytes]) => start(nodes, words, bytes, room),
            Step::Add(addition) => add(&self.state, addition, room),
            Step::Finish => return Some(finish(&self.state, room)),
            Step::Alter { at, bytes } => {
                self.room[*at..at + bytes.len()].copy_from_slice(bytes);
                return None;
            }
            Step::State(state) => {
                self.state = *state;
                return None;
            }
            Step::Lend(length) => {
                self.lent = *length;
                return None;
            }
        };
        Some(answer.map(|state| {
            self.state = state;
            0
        }))
    }
}
