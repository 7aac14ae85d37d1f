//! Runs of the writer, through the exports and the reference side by side: after every call the rule, the words of the answer,
//! the state, the whole room and what is beside it.

use std::ptr::null;

use reference::addition::Addition;
use reference::random::Random;
use reference::writer::State;
use reference::writer_runs::{Caller, Run, Step};

use crate::comparison::Comparison;
use crate::guarded::{Arena, Guarded, Room};
use crate::library::*;
use crate::questions::ask_written;
use crate::tally::Tally;

/// The longest room that is compared as a whole after every call; a longer one is after every seventh.
const SHORT: usize = 1 << 18;

/// Where the room and the parts of an addition are put.
pub struct Desk {
    room: Arena,
    parts: Parts,
    sections: Arena,
}

/// Where the parts of an addition are put, each at the end of its pages.
struct Parts {
    texts: [Arena; 3],
    dimensions: Arena,
    data: Arena,
}

impl Desk {
    /// A desk for rooms of up to so many bytes.
    pub fn new(longest: usize) -> Desk {
        let texts = [(); 3].map(|()| Arena::new(4096));
        let parts = Parts { texts, dimensions: Arena::new(1 << 20), data: Arena::new(longest) };
        Desk { room: Arena::new(longest + 4096), parts, sections: Arena::new(4096) }
    }

    /// Compares a run. It is given up where the library differs.
    pub fn compare(&mut self, run: &Run, random: &mut Random, tally: &mut Tally) {
        let before = tally.differences;
        let room = Room::new(&mut self.room, &run.room, random.one_in(2));
        let mut writing = Writing { parts: &mut self.parts, room, caller: Caller::of(&run.room), random, tally };
        let mut last = None;
        for step in &run.steps {
            last = writing.step(step);
            if writing.tally.differences > before {
                return;
            }
            if let (Step::Finish, Some(length)) = (step, last) {
                writing.read(length as usize, &mut self.sections);
            }
        }
        let ended = run.image.as_ref().is_some_and(|image| writing.ends_with(last, image));
        if run.image.is_some() && !ended {
            writing.tally.difference(Call::WriterFinish, "does not end with the image of the nodes added");
        }
        writing.tally.run(ended);
    }
}

/// A run that is being compared.
struct Writing<'a> {
    parts: &'a mut Parts,
    /// The room that the library is lent.
    room: Room<'a>,
    /// The reference's.
    caller: Caller,
    random: &'a mut Random,
    tally: &'a mut Tally,
}

impl Writing<'_> {
    /// Takes a step; now and then a call is made with too little lent before it. Answers the length of a finish.
    fn step(&mut self, step: &Step) -> Option<u64> {
        match step {
            Step::Alter { at, bytes } => self.room.alter(*at, bytes),
            Step::State(_) | Step::Lend(_) => (),
            Step::Start(_) | Step::Add(_) | Step::Finish => {
                let exact = 8 * words(step);
                let more = if self.random.one_in(8) { self.random.index(12) } else { 0 };
                if self.random.one_in(16) {
                    let less = *self.random.pick(&[exact - 1, exact - 8, 0]);
                    self.call(step, State::LENGTH + more, less);
                }
                if self.random.one_in(16) {
                    let few = self.random.index(State::LENGTH);
                    self.call(step, few, exact + more);
                }
                return self.call(step, State::LENGTH + more, exact + more);
            }
        }
        self.caller.step(step);
        None
    }

    /// Makes a call with so many numbers of state and bytes of answer lent, and compares everything. Answers the length of a
    /// finish.
    fn call(&mut self, step: &Step, numbers: usize, room: usize) -> Option<u64> {
        let call = call_of(step);
        let shift = self.tally.calls() as usize % 7;
        let given = self.caller.state;
        let mut state = match step {
            Step::Start(_) => Guarded::new(numbers, shift),
            _ => Guarded::holding(&given.numbers(), numbers, shift),
        };
        let mut answer = Guarded::<u8>::new(room, shift);
        let (mut state_after, mut answer_after) = (state.items().to_vec(), answer.items().to_vec());
        let (mut rule, mut length) = (46, None);
        if numbers >= State::LENGTH && room >= 8 * words(step) {
            let told = self.caller.step(step)?;
            length = told.ok().filter(|_| matches!(step, Step::Finish));
            let [at_node, entry] = told.map_or_else(|refusal| [refusal.node, refusal.entry], |_| [0; 2]);
            rule = told.map_or_else(|refusal| u64::from(refusal.rule), |_| 0);
            let all = [at_node, entry, length.unwrap_or(0)].map(u64::to_le_bytes).concat();
            answer_after[..8 * words(step)].copy_from_slice(&all[..8 * words(step)]);
            self.tally.writer_call(call, rule);
            if rule == 0 {
                state_after[..State::LENGTH].copy_from_slice(&self.caller.state.numbers());
            }
        }
        now_calling(call);
        let told = self.make(step, &mut state, &mut answer);
        self.tally.call(call, rule);
        let mut differs = |what: String| {
            let lent = self.caller.lent;
            let about = format!("({}; {given:?}; lent {lent}, {numbers}, {room}): {what}", shown(step));
            self.tally.difference(call, &about);
        };
        if told != rule {
            differs(format!("rule {told} not {rule}"));
        }
        if answer.items() != answer_after {
            differs(format!("answer {:?} not {answer_after:?}", answer.items()));
        }
        if state.items() != state_after {
            differs(format!("state {:?} not {state_after:?}", state.items()));
        }
        if !answer.guards_intact() || !state.guards_intact() || !self.room.guards_intact() {
            differs("writes beside the memory it was lent".to_string());
        }
        let whole = self.room.bytes().len() <= SHORT || shift == 0 || matches!(step, Step::Finish);
        if whole && self.room.bytes() != self.caller.room {
            let differing = self.room.bytes().iter().zip(&self.caller.room).position(|(one, other)| one != other);
            differs(format!("byte {differing:?} of the room"));
        }
        length
    }

    /// Makes the call of the library.
    fn make(&mut self, step: &Step, state: &mut Guarded<u32>, answer: &mut Guarded<u8>) -> u64 {
        let (out, length) = (self.room.pointer(), self.caller.lent);
        let out = if length == 0 && self.random.one_in(2) { std::ptr::null_mut() } else { out };
        let (numbers, room) = (state.room(), answer.room());
        match step {
            // SAFETY: all memory is lent with its length.
            &Step::Start([nodes, words, bytes]) => unsafe {
                let (state, answer) = (state.pointer(), answer.pointer());
                gongaurora_export_writer_start(nodes, words, bytes, out, length, state, numbers, answer, room)
            },
            Step::Add(addition) => {
                let (state, answer) = (state.pointer(), answer.pointer());
                let [name, label, data_type, dimensions, data] = self.parts.place(addition);
                // SAFETY: all memory is lent with its length.
                let rule = unsafe {
                    gongaurora_export_writer_add(
                        name,
                        addition.name.len(),
                        label,
                        addition.label.len(),
                        data_type,
                        addition.data_type.len(),
                        dimensions.cast(),
                        addition.dimensions.len(),
                        addition.parent,
                        data,
                        addition.data.len(),
                        out,
                        length,
                        state,
                        numbers,
                        answer,
                        room,
                    )
                };
                if !self.parts.hold(addition) {
                    self.tally.difference(Call::WriterAdd, "writes the node that it was given");
                }
                rule
            }
            // SAFETY: all memory is lent with its length.
            _ => unsafe {
                gongaurora_export_writer_finish(out, length, state.pointer(), numbers, answer.pointer(), room)
            },
        }
    }

    /// Reads the finished image in the room by the library's other calls.
    fn read(&mut self, length: usize, sections: &mut Arena) {
        let (image, lent) = (&self.caller.room[..length], self.room.pointer());
        ask_written(&mut Comparison { image, lent, sections, tally: self.tally }, self.random);
    }

    /// Whether the last finish answered the length of this image, and the room holds it.
    fn ends_with(&self, last: Option<u64>, image: &[u8]) -> bool {
        last == Some(image.len() as u64) && self.room.bytes().starts_with(image)
    }
}

impl Parts {
    /// Puts the parts of an addition at the ends of their pages; those of no bytes are nowhere.
    fn place(&mut self, addition: &Addition) -> [*const u8; 5] {
        let dimensions: Vec<u8> = addition.dimensions.iter().flat_map(|word| word.to_le_bytes()).collect();
        let [name, label, data_type] = &mut self.texts;
        let put = |arena: &mut Arena, bytes: &[u8]| if bytes.is_empty() { null() } else { arena.place(bytes, true) };
        [
            put(name, &addition.name),
            put(label, &addition.label),
            put(data_type, &addition.data_type),
            put(&mut self.dimensions, &dimensions),
            put(&mut self.data, &addition.data),
        ]
    }

    /// Whether the parts are as they were put.
    fn hold(&self, addition: &Addition) -> bool {
        let [name, label, data_type] = &self.texts;
        let dimensions: Vec<u8> = addition.dimensions.iter().flat_map(|word| word.to_le_bytes()).collect();
        name.ends_with(&addition.name)
            && label.ends_with(&addition.label)
            && data_type.ends_with(&addition.data_type)
            && self.dimensions.ends_with(&dimensions)
            && self.data.ends_with(&addition.data)
    }
}

fn call_of(step: &Step) -> Call {
    match step {
        Step::Start(_) => Call::WriterStart,
        Step::Add(_) => Call::WriterAdd,
        _ => Call::WriterFinish,
    }
}

/// The words of a call's answer.
fn words(step: &Step) -> usize {
    if matches!(step, Step::Finish) {
        3
    } else {
        2
    }
}

/// A call without all of its data.
fn shown(step: &Step) -> String {
    match step {
        Step::Add(Addition { name, label, data_type, dimensions, parent, data }) => {
            let [name, label, data_type] = [name, label, data_type].map(|text| text.escape_ascii().to_string());
            let some = &dimensions[..dimensions.len().min(14)];
            let (rank, bytes) = (dimensions.len(), data.len());
            format!("{name:?} {label:?} {data_type:?} {some:?} of {rank}, parent {parent}, {bytes} bytes")
        }
        _ => format!("{step:?}"),
    }
}
