//! Queries of additions (document 02, §8): a node of the image once more in its place, or one node more, with one thing
//! changed.

use super::Asker;
use crate::answers::{add_line, numbers};
use crate::header::Header;
use crate::records::Record;
use crate::table::check_table;
use crate::text::trimmed;
use crate::writer::State;
use crate::writer_calls::{AddCall, Places, Room};

/// How many changes there are.
const CHANGES: usize = 27;
/// The greatest dimension count that is asked for.
const MOST_WORDS: u64 = 16;

impl Asker<'_> {
    /// Additions of a node with each of the changes: the node that breaks one of rules 7 to 17 where there is one, else any.
    pub(super) fn additions(&mut self, stated: [u32; 3]) {
        let broken = check_table(self.image).err().filter(|rejection| (7..=17).contains(&rejection.rule));
        for kind in 0..CHANGES {
            let any = self.random.index(stated[0] as usize);
            let node = broken.map_or(any, |rejection| rejection.node as usize);
            let mut call = self.again(stated, node);
            self.change(&mut call, kind);
            call.node.rank = call.node.rank.min(MOST_WORDS);
            let answer = add_line(self.image, &call);
            self.note(format!("add{}", numbers(call.numbers())), answer);
        }
    }

    /// A node of the image once more in its place: the room has the header and the records before it.
    fn again(&mut self, [node_count, dimension_words, data_length]: [u32; 3], node: usize) -> AddCall {
        let record = Record::read(self.image, node);
        let (words, bytes) = (record.first_word, record.data_offset);
        let words_at = Record::at(node_count as usize) as u64;
        let data_at = words_at + Header::WORD_SIZE as u64 * u64::from(dimension_words);
        let mut length = |text| if self.random.one_in(3) { 32 } else { trimmed(text).len() as u64 };
        let places = Places {
            texts: Record::at(node) as u64,
            name: length(&record.name),
            label: length(&record.label),
            data_type: 2,
            words: words_at + Header::WORD_SIZE as u64 * u64::from(words),
            rank: u64::from(record.dimension_count),
            parent: u64::from(record.parent),
            data: data_at + u64::from(bytes),
            length: u64::from(record.data_length),
        };
        AddCall {
            state: State { node_count, dimension_words, data_length, nodes: node as u32, words, bytes },
            room: Room { kept: Record::at(node), length: self.image.len() },
            node: places,
        }
    }

    /// Changes an addition: most are accepted with the first nine, and refused with the others, which go by the order of the
    /// refusals.
    fn change(&mut self, call: &mut AddCall, kind: usize) {
        let few = 1 + self.random.below(9);
        match kind {
            0 => (),
            1 => call.room.kept += self.random.index(self.image.len()),
            2 => call.room.length += few as usize,
            3 => call.node.texts = Record::at(self.random.index(call.state.node_count as usize)) as u64,
            4 => self.lower_parent(call),
            5 => self.lower_sums(call),
            6 => self.fewer_stated(call),
            7 => {
                one_more(call);
                self.lower_parent(call);
            }
            8 => call.node.name -= few.min(call.node.name.saturating_sub(1)),
            9 => call.room.length -= few as usize,
            10 => self.more_stated(call),
            11 => self.after_the_last(call),
            12 => self.parent_not_lower(call),
            13 => call.room.kept = Record::at(self.random.index(call.state.nodes as usize)) + few as usize,
            14 => self.below_the_deepest(call),
            15 => call.node.name = *self.random.pick(&[0, 33, 40]),
            16 => call.node.texts += 60 + 2 * few,
            17 => call.node.label = *self.random.pick(&[0, 33, 40]),
            18 => one_more(call),
            19 => self.name_of_sibling(call),
            20 => call.node.data_type = *self.random.pick(&[0, 1, 3, 32]),
            21 => self.other_rank(call),
            22 => call.state.words = self.past(call.state.dimension_words, call.node.rank),
            23 => self.other_length(call),
            24 => self.other_words(call),
            25 => call.state.bytes = self.past(call.state.data_length, call.node.length),
            _ => self.other_state(call),
        }
    }

    fn lower_parent(&mut self, call: &mut AddCall) {
        if call.state.nodes > 0 {
            call.node.parent = self.random.below(u64::from(call.state.nodes));
        }
    }

    /// Sums that are too low: words and data of nodes before are written over.
    fn lower_sums(&mut self, call: &mut AddCall) {
        for sum in [&mut call.state.words, &mut call.state.bytes] {
            *sum = self.random.below(u64::from(*sum) + 1) as u32;
        }
    }

    /// Fewer nodes and words, but enough for this node: words and data go to other places.
    fn fewer_stated(&mut self, call: &mut AddCall) {
        let spare = u64::from(call.state.node_count - call.state.nodes);
        call.state.node_count -= self.random.below(spare) as u32;
        let used = call.state.words.saturating_add(call.node.rank as u32);
        call.state.dimension_words = call.state.dimension_words.min(used);
    }

    /// A state that needs more than the room, by little or by more than 32 bits tell.
    fn more_stated(&mut self, call: &mut AddCall) {
        let few = 1 + self.random.below(3) as u32;
        let state = &mut call.state;
        match self.random.below(5) {
            0 => state.data_length += few,
            1 => state.dimension_words += few,
            2 => state.dimension_words += 1 << 29,
            3 => state.node_count += 1 << 30,
            _ => *state = State::of([u32::MAX; State::LENGTH]),
        }
    }

    fn after_the_last(&mut self, call: &mut AddCall) {
        let count = call.state.node_count;
        call.state.nodes = *self.random.pick(&[count, count, count + 1, u32::MAX]);
    }

    fn parent_not_lower(&mut self, call: &mut AddCall) {
        let (node, none) = (u64::from(call.state.nodes), u64::from(Record::NO_PARENT));
        let lower = (1 << 32) + call.node.parent;
        let others = if node == 0 { [0, none - 1, none + 1, u64::MAX] } else { [node, node + 1, none, lower] };
        call.node.parent = *self.random.pick(&others);
    }

    /// One node more than the image has, below the deepest.
    fn below_the_deepest(&mut self, call: &mut AddCall) {
        one_more(call);
        let mut depths: Vec<u32> = Vec::new();
        for node in 0..call.state.nodes as usize {
            let parent = Record::read(self.image, node).parent as usize;
            depths.push(depths.get(parent).map_or(0, |depth| depth + 1));
        }
        call.node.parent = (0..).zip(depths).max_by_key(|&(_, depth)| depth).map_or(0, |(node, _)| node);
    }

    /// The texts of a record before with the same parent, where there is one.
    fn name_of_sibling(&mut self, call: &mut AddCall) {
        let same = |&node: &usize| u64::from(Record::read(self.image, node).parent) == call.node.parent;
        if let Some(sibling) = (0..call.state.nodes as usize).find(same) {
            call.node.texts = Record::at(sibling) as u64;
            call.node.name = 32;
        }
    }

    fn other_rank(&mut self, call: &mut AddCall) {
        call.node.rank = *self.random.pick(if call.node.rank == 0 { &[1, 2] } else { &[0, 13] });
    }

    /// A sum that leaves one too few, or is itself past what was stated.
    fn past(&mut self, stated: u32, own: u64) -> u32 {
        let left = stated.saturating_sub(own as u32);
        *self.random.pick(&[left + 1, left + 1, stated + 1, u32::MAX])
    }

    fn other_length(&mut self, call: &mut AddCall) {
        let length = call.node.length;
        call.node.length = *self.random.pick(&[length + 1, length.saturating_sub(1), 0, length + 4, length / 2]);
        call.node.data = call.node.data.min((self.image.len() as u64).saturating_sub(call.node.length));
    }

    /// Dimensions that are other bytes of the image, or fewer.
    fn other_words(&mut self, call: &mut AddCall) {
        match self.random.below(4) {
            0 => call.node.words = call.node.words.saturating_sub(1 + self.random.below(9)),
            1 => call.node.words = 8 * self.random.below(8),
            2 => call.node.words = self.image.len() as u64,
            _ => call.node.rank = call.node.rank.saturating_sub(1),
        }
    }

    /// A state with one or two numbers changed.
    fn other_state(&mut self, call: &mut AddCall) {
        let mut fields = call.state.numbers();
        for _ in 0..1 + self.random.below(2) {
            let field = &mut fields[self.random.index(State::LENGTH)];
            let near = [field.wrapping_add(1), field.saturating_sub(1), 0, *field / 2, u32::MAX];
            *field = *self.random.pick(&near);
        }
        call.state = State::of(fields);
    }
}

/// One node more than is stated, like this one, with room for its words and data.
fn one_more(call: &mut AddCall) {
    let [nodes, words, bytes, ..] = call.state.numbers();
    let (rank, length) = (call.node.rank.min(MOST_WORDS) as u32, call.node.length.min(1 << 11) as u32);
    call.state = State::of([nodes + 1, words + rank, bytes + length, nodes, words, bytes]);
    call.room = Room { kept: Record::at(nodes as usize), length: call.state.needed() as usize };
}
