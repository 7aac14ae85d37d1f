//! Queries of the writer (document 02, §8): starts, and additions and finishes in rooms that are made of the image.

use super::Asker;
use crate::answers::{finish_line, numbers, start_line};
use crate::header::{check_header, Header, MAX_IMAGE, MAX_NODES, MAX_WORDS};
use crate::records::Record;
use crate::writer::State;
use crate::writer_calls::Room;

/// The longest image that rooms are made of.
const LONGEST: usize = 4_096;

impl Asker<'_> {
    /// What is asked of the writer: starts on one image of three, the other calls on images that are short.
    pub(super) fn writer(&mut self) {
        if self.random.one_in(3) {
            self.starts();
        }
        if (Header::SIZE..=LONGEST).contains(&self.image.len()) {
            let stated = self.stated();
            if stated[0] > 0 {
                self.additions(stated);
            }
            self.finishes(stated);
        }
    }

    /// Starts in rooms that are long enough, and starts of each refusal.
    fn starts(&mut self) {
        let [n, d, x] = [1 + self.random.below(2), self.random.below(4), self.random.below(20)];
        let base = Header::length(n, d, 0) as u64;
        let (needed, rest) = ((base + x) as usize, MAX_IMAGE as u64 - base);
        let (few, odd) = (self.random.index(40), self.random.below(9));
        let too_many = |most: u32| [u64::from(most) + 1, u64::from(most) + 1 + odd, (1 << 32) + 1, u64::MAX - odd];
        let (nodes, words) = (*self.random.pick(&too_many(MAX_NODES)), *self.random.pick(&too_many(MAX_WORDS)));
        for (stated, room) in [
            ([n, d, x], needed),
            ([n, d, x], needed + 1 + few),
            ([0, words, x], few),
            ([nodes, d, x], few),
            ([n, words, u64::MAX], few),
            ([n, d, rest + 1 + odd], few),
            ([n, d, u64::MAX - odd], few),
            ([n, d, u64::MAX - base + 1 + x], needed),
            ([n, d, x], needed - 1),
            ([n, d, rest], few),
            ([u64::from(MAX_NODES), u64::from(MAX_WORDS), x], few),
        ] {
            self.note(format!("start{} {room}", numbers(stated)), start_line(stated, room));
        }
    }

    /// N, D and the data length as the header has them where it passes rules 1 to 6; else as many records as the image has
    /// bytes for, and data.
    fn stated(&self) -> [u32; 3] {
        check_header(self.image).map_or_else(
            |_| {
                let rest = self.image.len() - Header::SIZE;
                [rest / Record::SIZE, 0, rest % Record::SIZE].map(|count| count as u32)
            },
            |header| [header.node_count, header.dimension_words, header.data_length],
        )
    }

    /// Finishes: of the whole image, with other sums, in a longer room and with the end or the records of the image lost; too
    /// early, in a short room, and with other numbers stated.
    fn finishes(&mut self, [n, d, x]: [u32; 3]) {
        let length = self.image.len();
        let (few, odd) = (1 + self.random.below(7) as u32, self.random.bits() as u32);
        let least = x.min(few);
        let lost = Record::at(self.random.index(n as usize)) + self.random.index(Record::SIZE);
        let all = [n, d, x, n, d, x];
        for (state, kept, room) in [
            (all, length, length),
            ([n, d, x, n, 0, odd], length, length),
            (all, length, length + few as usize),
            (all, length - least as usize, length),
            ([n, d - d.min(1), x + 8 * d.min(1), n + few, odd, x], length, length),
            ([n, d, x, u32::MAX, odd, odd], length + 3, length + 3),
            ([n, d, x, n.saturating_sub(1), d, x], length, length),
            ([n, d, x, odd % (n + 1), d, x], length, length),
            (all, length, length - 1),
            ([n, d, x + few, n, d, x], length, length),
            ([n + (1 << 30), d, x, u32::MAX, d, x], length, length),
            ([n, d, x - least, n, d, x], length, length),
            ([0, 0, few, 0, 0, 0], length, length),
            (all, lost, length),
            (all, self.random.index(Header::SIZE), length),
        ] {
            let (state, room) = (State::of(state), Room { kept, length: room });
            let query = format!("finish{}{}", numbers(state.numbers()), numbers(room.numbers()));
            self.note(query, finish_line(self.image, &state, &room));
        }
    }
}
