//! The writer's calls as numbers, for programs that ask them of another writer: a room that begins with bytes of an image, and
//! a node whose parts stand in that image.

use crate::addition::Addition;
use crate::answers::FILLING;
use crate::bytes::u64_at;
use crate::header::Header;
use crate::writer::State;

/// An addition.
#[derive(Clone, Copy, Debug, PartialEq, Eq)]
pub struct AddCall {
    pub state: State,
    pub room: Room,
    pub node: Places,
}

impl AddCall {
    /// Its numbers: those of the state, of the room and of the node.
    pub fn numbers(&self) -> Vec<u64> {
        let (state, room, node) = (self.state.numbers().map(u64::from), self.room.numbers(), self.node.numbers());
        [&state[..], &room, &node].concat()
    }
}

/// A room: the first bytes of an image, as many as it has up to `kept`, and 170 in each byte after them.
#[derive(Clone, Copy, Debug, PartialEq, Eq)]
pub struct Room {
    pub kept: usize,
    pub length: usize,
}

impl Room {
    /// How many numbers it is.
    pub const LENGTH: usize = 2;

    /// Its numbers.
    pub fn numbers(&self) -> [u64; Room::LENGTH] {
        [self.kept, self.length].map(|number| number as u64)
    }

    /// Its bytes.
    pub fn bytes(&self, image: &[u8]) -> Vec<u8> {
        let mut room = vec![FILLING; self.length];
        room.iter_mut().zip(image).take(self.kept).for_each(|(byte, &of_image)| *byte = of_image);
        room
    }
}

/// A node whose parts stand in an image. A part that is not wholly in it is empty.
#[derive(Clone, Copy, Debug, Default, PartialEq, Eq)]
pub struct Places {
    /// Where the name stands; the label stands 32 bytes later, the type 64, as in a record.
    pub texts: u64,
    /// The lengths of these three.
    pub name: u64,
    pub label: u64,
    pub data_type: u64,
    /// Where the dimension words stand, and how many they are.
    pub words: u64,
    pub rank: u64,
    pub parent: u64,
    /// Where the data stand, and how many bytes they are.
    pub data: u64,
    pub length: u64,
}

impl Places {
    /// How many numbers it is.
    pub const LENGTH: usize = 9;

    /// The places of nine numbers.
    pub fn of(numbers: [u64; Places::LENGTH]) -> Places {
        let [texts, name, label, data_type, words, rank, parent, data, length] = numbers;
        Places { texts, name, label, data_type, words, rank, parent, data, length }
    }

    /// Its nine numbers.
    pub fn numbers(&self) -> [u64; Places::LENGTH] {
        let Places { texts, name, label, data_type, words, rank, parent, data, length } = *self;
        [texts, name, label, data_type, words, rank, parent, data, length]
    }

    /// The node that an image has at these places.
    pub fn addition(&self, image: &[u8]) -> Addition {
        let text = |after, length| part(image, self.texts.saturating_add(after), length).to_vec();
        let words = part(image, self.words, self.rank.saturating_mul(Header::WORD_SIZE as u64));
        Addition {
            name: text(0, self.name),
            label: text(32, self.label),
            data_type: text(64, self.data_type),
            dimensions: words.chunks_exact(Header::WORD_SIZE).map(|word| u64_at(word, 0)).collect(),
            parent: self.parent,
            data: part(image, self.data, self.length).to_vec(),
        }
    }
}

/// So many bytes of an image from a place on; none where it has not so many there.
fn part(image: &[u8], at: u64, length: u64) -> &[u8] {
    let end = usize::try_from(at.saturating_add(length)).unwrap_or(usize::MAX);
    image.get(at as usize..end).unwrap_or_default()
}
