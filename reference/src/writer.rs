//! The writer (document 02, §8): a start, additions in node order and a finish, each on any state and in any room. A
//! refused call changes nothing.

use crate::addition::{additions, Addition};
use crate::header::{Header, MAX_IMAGE, MAX_NODES, MAX_WORDS};
use crate::records::{data_length_fits, data_type_of, dimension_count_lawful, name_lawful, no_link, within, Record};
use crate::rejection::Rejection;
use crate::table::check_table;
use crate::text::text_lawful;

/// What a call answers and the next one is given.
#[derive(Clone, Copy, Debug, Default, PartialEq, Eq)]
pub struct State {
    /// N, D and the data length, as stated at the start.
    pub node_count: u32,
    pub dimension_words: u32,
    pub data_length: u32,
    /// The nodes, words and data bytes added so far.
    pub nodes: u32,
    pub words: u32,
    pub bytes: u32,
}

impl State {
    /// How many numbers it is.
    pub const LENGTH: usize = 6;

    /// The state of six numbers.
    pub fn of([node_count, dimension_words, data_length, nodes, words, bytes]: [u32; State::LENGTH]) -> State {
        State { node_count, dimension_words, data_length, nodes, words, bytes }
    }

    /// Its six numbers.
    pub fn numbers(&self) -> [u32; State::LENGTH] {
        [self.node_count, self.dimension_words, self.data_length, self.nodes, self.words, self.bytes]
    }

    /// The bytes of room that it needs, exactly.
    pub fn needed(&self) -> u64 {
        let [nodes, words, bytes] = [self.node_count, self.dimension_words, self.data_length].map(u64::from);
        Header::length(nodes, words, bytes) as u64
    }

    /// The needed room, or 46.
    fn lent<'a>(&self, room: &'a [u8]) -> Result<&'a [u8], Rejection> {
        usize::try_from(self.needed()).ok().and_then(|needed| room.get(..needed)).ok_or(Rejection::of_call(46))
    }

    /// Where the words and the data of the next node begin.
    fn places(&self) -> (usize, usize) {
        let words = Record::at(self.node_count as usize);
        let data = words + Header::WORD_SIZE * self.dimension_words as usize;
        (words + Header::WORD_SIZE * self.words as usize, data + self.bytes as usize)
    }
}

/// Writes the header and zeros into the needed room and answers the state; or 4, 5, 1, 46.
pub fn start(nodes: u64, words: u64, bytes: u64, room: &mut [u8]) -> Result<State, Rejection> {
    if !(1..=u64::from(MAX_NODES)).contains(&nodes) {
        return Err(Rejection::of_call(4));
    }
    if words > u64::from(MAX_WORDS) {
        return Err(Rejection::of_call(5));
    }
    let length = Header::length(nodes, words, bytes);
    if length > MAX_IMAGE as u128 {
        return Err(Rejection::of_call(1));
    }
    let needed = room.get_mut(..length as usize).ok_or(Rejection::of_call(46))?;
    let [node_count, dimension_words, data_length] = [nodes, words, bytes].map(|count| count as u32);
    let header = Header::of(node_count, dimension_words, data_length).ok_or(Rejection::of_call(1))?;
    needed.fill(0);
    needed[..Header::SIZE].copy_from_slice(&header.to_bytes());
    Ok(State { node_count, dimension_words, data_length, ..State::default() })
}

/// Writes the record, the words and the data of the next node and answers the state after it; or 46, 50, or the first broken
/// of rules 7 to 17, at the node's own number.
pub fn add(state: &State, addition: &Addition, room: &mut [u8]) -> Result<State, Rejection> {
    let record = judged(state, addition, room)?;
    let (words_at, data_at) = state.places();
    let at = Record::at(state.nodes as usize);
    room[at..at + Record::SIZE].copy_from_slice(&record.to_bytes());
    for (k, word) in addition.dimensions.iter().enumerate() {
        let at = words_at + Header::WORD_SIZE * k;
        room[at..at + Header::WORD_SIZE].copy_from_slice(&word.to_le_bytes());
    }
    room[data_at..data_at + addition.data.len()].copy_from_slice(&addition.data);
    Ok(State {
        nodes: state.nodes + 1,
        words: state.words + u32::from(record.dimension_count),
        bytes: state.bytes + record.data_length,
        ..*state
    })
}

/// The record that an addition is to write, or its refusal, as `add` gives it.
pub fn judged(state: &State, addition: &Addition, room: &[u8]) -> Result<Record, Rejection> {
    let room = state.lent(room)?;
    if state.nodes >= state.node_count {
        return Err(Rejection::of_call(50));
    }
    let next = Next { state, addition, room };
    for (rule, holds) in ADDITION_RULES {
        if !holds(&next) {
            return Err(Rejection::at_node(rule, state.nodes as usize));
        }
    }
    Ok(Record {
        name: addition.name_text().unwrap_or_default(),
        label: addition.label_text().unwrap_or_default(),
        data_type: addition.data_type[..].try_into().unwrap_or_default(),
        dimension_count: addition.dimensions.len() as u16,
        first_word: state.words,
        parent: addition.parent as u32,
        data_offset: state.bytes,
        data_length: addition.data.len() as u32,
    })
}

/// The length of the image that the needed room is; or 46, 51, or the first that it breaks of rules 1 to 18.
pub fn finish(state: &State, room: &[u8]) -> Result<u64, Rejection> {
    let needed = state.lent(room)?;
    if state.nodes < state.node_count {
        return Err(Rejection::of_call(51));
    }
    check_table(needed)?;
    Ok(needed.len() as u64)
}

/// A node that is to be added, with the records then in the room.
struct Next<'a> {
    state: &'a State,
    addition: &'a Addition,
    room: &'a [u8],
}

/// The rules of an addition, ascending: number, and whether it holds.
type AdditionRule = (u32, fn(&Next) -> bool);
const ADDITION_RULES: [AdditionRule; 11] = [
    (7, |next| next.parent_lawful()),
    (8, |next| next.depth_lawful()),
    (9, |next| next.addition.name_text().is_some_and(|name| name_lawful(&name))),
    (10, |next| next.addition.label_text().is_some_and(|label| text_lawful(&label))),
    (11, |next| next.name_new()),
    (12, |next| no_link(&next.addition.data_type)),
    (13, |next| data_type_of(&next.addition.data_type).is_some()),
    (14, |next| dimension_count_lawful(&next.addition.data_type, next.rank())),
    (15, |next| within(u64::from(next.state.words), next.rank(), next.state.dimension_words)),
    (16, |next| data_length_fits(&next.addition.data_type, &next.addition.dimensions, next.data_length())),
    (17, |next| within(u64::from(next.state.bytes), next.data_length(), next.state.data_length)),
];

impl Next<'_> {
    fn rank(&self) -> u64 {
        self.addition.dimensions.len() as u64
    }

    fn data_length(&self) -> u64 {
        self.addition.data.len() as u64
    }

    /// Rule 7: the root's parent is 4294967295; every other one is a lower number whose own parents up to the root are
    /// lawful.
    fn parent_lawful(&self) -> bool {
        if self.state.nodes == 0 {
            self.addition.parent == u64::from(Record::NO_PARENT)
        } else {
            self.parent_depth().is_some()
        }
    }

    /// Rule 8: the depth is at most 32.
    fn depth_lawful(&self) -> bool {
        self.state.nodes == 0 || self.parent_depth().is_some_and(|depth| depth < Record::MAX_DEPTH)
    }

    /// The depth of the parent by the records in the room; nothing where it is not lower or a record on the way up breaks
    /// rule 7.
    fn parent_depth(&self) -> Option<u32> {
        if self.addition.parent >= u64::from(self.state.nodes) {
            return None;
        }
        let (mut node, mut depth) = (self.addition.parent as u32, 0);
        loop {
            let parent = Record::read(self.room, node as usize).parent;
            if node == 0 {
                return (parent == Record::NO_PARENT).then_some(depth);
            }
            if parent >= node {
                return None;
            }
            (node, depth) = (parent, depth + 1);
        }
    }

    /// Rule 11: no record before has the parent and the name.
    fn name_new(&self) -> bool {
        let (parent, name) = (self.addition.parent, self.addition.name_text());
        let mut before = (0..self.state.nodes as usize).map(|node| Record::read(self.room, node));
        !before.any(|record| u64::from(record.parent) == parent && Some(record.name) == name)
    }
}

/// An image read node by node and written again, or the first broken of rules 1 to 18.
pub fn rewritten(image: &[u8]) -> Result<Vec<u8>, Rejection> {
    let ([nodes, words, bytes], additions) = additions(image)?;
    let mut room = vec![0; image.len()];
    let mut state = start(nodes, words, bytes, &mut room)?;
    for addition in &additions {
        state = add(&state, addition, &mut room)?;
    }
    finish(&state, &room)?;
    Ok(room)
}
