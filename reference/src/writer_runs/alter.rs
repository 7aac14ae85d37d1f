//! What a caller may change in the room between calls, each to break a rule.

use crate::bytes::u32_at;
use crate::header::Header;
use crate::records::Record;
use crate::text::padded;

use super::maker::Maker;

/// The rules that an alteration of a finished room breaks.
pub const ALTERED: [u32; 16] = [2, 3, 4, 5, 6, 7, 9, 10, 11, 12, 13, 14, 15, 16, 17, 18];

impl Maker<'_> {
    /// Changes the room so that, unless it is changed further, rules 1 to 18 give this rule.
    pub fn break_room(&mut self, rule: u32) {
        match rule {
            2..=6 => self.break_header(rule),
            11 => self.repeat_name(),
            18 => self.cut_last(),
            _ => self.break_record(rule),
        }
    }

    fn break_header(&mut self, rule: u32) {
        let place = match rule {
            2 => 0,
            3 => 4,
            4 => 8,
            5 => 20,
            _ => *self.random.pick(&[12, 16, 24, 28]),
        };
        let odd = match rule {
            4 => *self.random.pick(&[0, 4097, u32::MAX]),
            5 => *self.random.pick(&[49153, u32::MAX]),
            _ => u32_at(&self.caller.room, place) ^ (1 << self.random.below(32)),
        };
        self.alter(place, &odd.to_le_bytes());
    }

    /// How many records the state counts that are in the room.
    fn records(&self) -> usize {
        let whole = self.caller.room.len().saturating_sub(Header::SIZE) / Record::SIZE;
        whole.min(self.caller.state.nodes as usize)
    }

    fn break_record(&mut self, rule: u32) {
        if self.records() == 0 {
            return;
        }
        let node = self.random.index(self.records());
        let at = Record::at(node);
        let record = Record::read(&self.caller.room, node);
        let (number, none) = (node as u32, Record::NO_PARENT);
        let parent = if node == 0 { [0, 1, none - 1] } else { [number, number + 1, none] };
        let parent = *self.random.pick(&parent);
        let empty = record.dimension_count == 0;
        let byte = *self.random.pick(&[0, 31, 127, 255]);
        let of_name = *self.random.pick(&[b'/', byte]);
        let place = self.random.index(32);
        match rule {
            7 => self.alter(at + 72, &parent.to_le_bytes()),
            9 => self.alter(at + place, &[of_name]),
            10 => self.alter(at + 32 + place, &[byte]),
            12 => self.alter(at + 64, b"LK"),
            13 => self.alter(at + 64, b"i4"),
            14 => self.alter(at + 66, &[if empty { 1 } else { 13 }, 0]),
            15 => self.alter(at + 68, &(record.first_word ^ 1).to_le_bytes()),
            16 => self.alter(at + 80, &record.data_length.wrapping_add(1 << place).to_le_bytes()),
            _ => self.alter(at + 76, &(record.data_offset ^ 1).to_le_bytes()),
        }
    }

    /// Gives a record the name of an earlier sibling, where there is one.
    fn repeat_name(&mut self) {
        let count = self.records();
        let records: Vec<Record> = (0..count).map(|node| Record::read(&self.caller.room, node)).collect();
        let sibling = |one: usize| (0..one).find(|&other| records[other].parent == records[one].parent);
        let pairs: Vec<(usize, usize)> = (1..count).filter_map(|one| Some((one, sibling(one)?))).collect();
        if !pairs.is_empty() {
            let (one, other) = *self.random.pick(&pairs);
            self.alter(Record::at(one), &records[other].name);
        }
    }

    /// Gives the last record no words and no data.
    fn cut_last(&mut self) {
        let at = Record::at(self.records().saturating_sub(1));
        self.alter(at + 64, b"MT\0\0");
        self.alter(at + 80, &[0; 4]);
    }

    /// Gives a record with the parent of the next node its name, or another record that name and parent.
    pub fn name_next(&mut self, number: usize) {
        if self.records() == 0 {
            return;
        }
        let node = self.random.index(self.records());
        let (name, parent) = (padded(&self.source[number].name), self.source[number].parent as u32);
        self.alter(Record::at(node), &name);
        if node > 0 && self.random.one_in(2) {
            self.alter(Record::at(node) + 72, &parent.to_le_bytes());
        }
    }

    /// Changes bytes anywhere: of records, words, data, the header or what is past the needed room.
    pub fn alter_any(&mut self) {
        let length = self.caller.room.len();
        let bytes = self.random.bits().to_le_bytes();
        let count = 1 + self.random.index(8);
        let needed = self.caller.state.needed().min(length as u64) as usize;
        let any = self.random.index(length);
        let next = Record::at(self.caller.state.nodes as usize);
        let at = *self.random.pick(&[any, any, any % Header::SIZE, needed, next]);
        self.alter(at, &bytes[..count]);
    }
}
