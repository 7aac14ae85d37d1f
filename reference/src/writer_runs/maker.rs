//! A run that is being made: every step is taken at once, so that the next can be chosen by the room and the state.

use crate::addition::{stated, Addition};
use crate::header::{Header, MAX_IMAGE};
use crate::random::Random;
use crate::records::Record;
use crate::rejection::Rejection;
use crate::text::{padded, trimmed};
use crate::writer::{judged, State};

use super::damage::{Site, DAMAGES};
use super::{Caller, Run, Step};

/// A run that is being made of the nodes of a source.
pub struct Maker<'r> {
    pub random: &'r mut Random,
    pub source: Vec<Addition>,
    pub caller: Caller,
    room: Vec<u8>,
    steps: Vec<Step>,
    /// The damage that comes next.
    turn: usize,
}

impl<'r> Maker<'r> {
    /// A run of a source with a room of so many bytes.
    pub fn new(random: &'r mut Random, source: Vec<Addition>, length: usize) -> Maker<'r> {
        let mut room: Vec<u8> = (0..length.div_ceil(8)).flat_map(|_| random.bits().to_le_bytes()).collect();
        room.truncate(length);
        let turn = random.index(DAMAGES.len());
        Maker { caller: Caller::of(&room), random, source, room, steps: Vec::new(), turn }
    }

    /// The run, with the image that it ends with.
    pub fn run(self, image: Option<Vec<u8>>) -> Run {
        Run { room: self.room, steps: self.steps, image }
    }

    /// Takes a step.
    pub fn step(&mut self, step: Step) -> Option<Result<u64, Rejection>> {
        let answer = self.caller.step(&step);
        self.steps.push(step);
        answer
    }

    pub fn alter(&mut self, at: usize, bytes: &[u8]) {
        if at + bytes.len() <= self.caller.room.len() {
            self.step(Step::Alter { at, bytes: bytes.to_vec() });
        }
    }

    pub fn state(&mut self, state: State) {
        self.step(Step::State(state));
    }

    /// Adds the node of the source of this number, with or without the blanks behind name and label.
    pub fn add(&mut self, number: usize) -> Option<Result<u64, Rejection>> {
        let right = self.right(number);
        self.step(Step::Add(right))
    }

    /// Adds a node of type MT with a name of its own, as the root or below it.
    pub fn add_empty(&mut self) {
        let parent = if self.caller.state.nodes == 0 { u64::from(Record::NO_PARENT) } else { 0 };
        let (name, label) = (format!("empty {}", self.steps.len()).into_bytes(), b"L".to_vec());
        let addition = Addition { name, label, data_type: b"MT".to_vec(), parent, ..Addition::default() };
        self.step(Step::Add(addition));
    }

    /// The node of the source of this number, with or without the blanks behind name and label.
    fn right(&mut self, number: usize) -> Addition {
        let node = &self.source[number];
        let [name, label] = [&node.name, &node.label].map(|text| {
            let whole = padded(text);
            let (least, rest) = (trimmed(&whole).len(), self.random.index(33));
            let length = *self.random.pick(&[least, least, 32, least.max(rest)]);
            whole[..length].to_vec()
        });
        Addition { name, label, ..node.clone() }
    }

    /// An addition that breaks a rule, or two, in place of the one of this number; nothing where it would be taken.
    pub fn damaged(&mut self, number: usize) {
        let mut addition = self.right(number);
        let site = Site { before: &self.source[..number], state: &self.caller.state };
        let twice = self.random.one_in(4);
        for _ in 0..DAMAGES.len() {
            self.turn = (self.turn + 1) % DAMAGES.len();
            if DAMAGES[self.turn].1(&mut addition, &site, self.random) {
                break;
            }
        }
        if twice {
            self.random.pick(&DAMAGES).1(&mut addition, &site, self.random);
        }
        let caller = &self.caller;
        if judged(&caller.state, &addition, &caller.room[..caller.lent]).is_err() {
            self.step(Step::Add(addition));
        }
    }

    /// Starts that are refused: 4, 5, 1, 46, now and then two at once.
    pub fn refused_starts(&mut self) {
        let right = stated(&self.source);
        for _ in 0..self.random.below(4) {
            let mut numbers = right;
            for _ in 0..1 + self.random.below(2) {
                self.wrong(&mut numbers);
            }
            let length = Header::length(numbers[0], numbers[1], numbers[2]);
            let lawful = (1..=4096).contains(&numbers[0]) && numbers[1] <= 49152 && length <= MAX_IMAGE as u128;
            if !lawful || length > self.caller.lent as u128 {
                self.step(Step::Start(numbers));
            }
        }
    }

    /// States a number that is over its limit, or at it.
    fn wrong(&mut self, numbers: &mut [u64; 3]) {
        let rest = (MAX_IMAGE as u128).saturating_sub(Header::length(numbers[0], numbers[1], 0)) as u64;
        match self.random.below(4) {
            0 => numbers[0] = *self.random.pick(&[0, 4097, 4096, numbers[0].wrapping_add(1 << 32), 1 << 32, u64::MAX]),
            1 => numbers[1] = *self.random.pick(&[49153, 49152, numbers[1].wrapping_add(1 << 32), 1 << 61, u64::MAX]),
            2 => {
                numbers[2] =
                    *self.random.pick(&[rest, rest + 1, numbers[2].wrapping_add(1 << 32), u64::MAX, u64::MAX - 300])
            }
            _ => numbers[2] = numbers[2].wrapping_add(self.caller.lent as u64 + self.random.below(9)),
        }
    }

    /// Calls with less room than is needed: all are 46.
    pub fn short_room(&mut self, number: usize) {
        let whole = self.caller.lent;
        let needed = (self.caller.state.needed() as usize).min(whole);
        let any = self.random.index(needed.max(1));
        let length = *self.random.pick(&[needed.saturating_sub(1), needed.saturating_sub(1), any, 0]);
        self.step(Step::Lend(length));
        match self.random.below(3) {
            0 => drop(self.step(Step::Finish)),
            1 => self.damaged(number),
            _ => drop(self.add(number)),
        }
        self.step(Step::Lend(whole));
    }
}
