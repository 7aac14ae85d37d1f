//! States that no call answered.

use crate::header::Header;
use crate::writer::State;

use super::maker::Maker;

impl Maker<'_> {
    /// A state near the one answered last, with counts past what was stated, or of any numbers.
    pub fn made_up(&mut self, kind: u64) -> State {
        let state = self.caller.state;
        let State { node_count, dimension_words, data_length, nodes, words, bytes } = state;
        let few = self.random.below(3) as u32;
        match kind {
            0 => State { nodes: nodes.wrapping_add(1 + few), ..state },
            1 => State { nodes: nodes.saturating_sub(1 + few), ..state },
            2 => State { nodes: *self.random.pick(&[node_count, node_count.wrapping_add(1), u32::MAX]), ..state },
            3 => State { words: self.beyond(words, dimension_words), ..state },
            4 => State { bytes: self.beyond(bytes, data_length), ..state },
            5 => State { words: dimension_words.wrapping_add(1), bytes: data_length.wrapping_add(1), ..state },
            6 => State { node_count: nodes, ..state },
            7 => State { node_count: 0, nodes: few, ..state },
            8 => State { node_count: 0, dimension_words: 0, data_length: 0, ..state },
            9 => self.shifted(),
            10 => self.wrapping(),
            11 => State::of([u32::MAX; State::LENGTH]),
            12 => State { nodes: 0, words: 0, bytes: 0, ..state },
            _ => State::of([0; State::LENGTH].map(|_| self.random.bits() as u32)),
        }
    }

    /// A sum that is not the one so far, mostly past what was stated.
    fn beyond(&mut self, sum: u32, stated: u32) -> u32 {
        *self.random.pick(&[sum.wrapping_add(1), stated, stated.wrapping_add(1), u32::MAX])
    }

    /// How many kinds there are.
    pub const MADE_UP: u64 = 14;

    /// The same length with other counts.
    fn shifted(&mut self) -> State {
        let mut state = self.caller.state;
        let length = state.needed();
        (state.node_count, state.dimension_words) = (self.random.below(8) as u32, self.random.below(8) as u32);
        let rest = length.saturating_sub(State { data_length: 0, ..state }.needed());
        state.data_length = rest as u32;
        state.nodes = self.random.below(9) as u32;
        state
    }

    /// A state whose needed room is that of the one answered last in its lower 32 bits.
    fn wrapping(&mut self) -> State {
        let state = self.caller.state;
        let step = (1u64 << 32) / 4;
        match self.random.below(3) {
            0 => {
                let more = step / Header::WORD_SIZE as u64 * 4;
                State { dimension_words: (u64::from(state.dimension_words) + more) as u32, ..state }
            }
            1 => State { node_count: (u64::from(state.node_count) + step) as u32, ..state },
            _ => {
                let few = 1 + self.random.below(4) as u32;
                let less = 84 * few;
                State {
                    node_count: state.node_count.wrapping_add(few),
                    data_length: state.data_length.wrapping_sub(less),
                    ..state
                }
            }
        }
    }
}
