//! Node records (document 01, "The image") and rules 7 to 17, node by node, at a node the lowest rule first.

use std::collections::HashSet;

use crate::bytes::{u16_at, u32_at, u64_at};
use crate::data_type::DataType;
use crate::header::Header;
use crate::rejection::Rejection;
use crate::text::{text_lawful, Text};

/// One node's record, as it stands in the image.
#[derive(Clone, Copy, Debug, PartialEq, Eq)]
pub struct Record {
    pub name: Text,
    pub label: Text,
    pub data_type: [u8; 2],
    pub dimension_count: u16,
    pub first_word: u32,
    pub parent: u32,
    pub data_offset: u32,
    pub data_length: u32,
}

impl Record {
    /// Bytes of a record.
    pub const SIZE: usize = 84;
    /// The parent that the root's record names.
    pub const NO_PARENT: u32 = u32::MAX;
    /// Rule 8: the greatest depth, the root's being 0.
    pub const MAX_DEPTH: u32 = 32;
    /// Rule 14: the greatest dimension count.
    pub const MAX_DIMENSIONS: u64 = 12;

    /// Where the record of `node` begins.
    pub fn at(node: usize) -> usize {
        Header::SIZE + Record::SIZE * node
    }

    /// The record of `node` in an image, or in a writer's room, that has the bytes of so many records.
    pub fn read(image: &[u8], node: usize) -> Record {
        let at = Record::at(node);
        Record {
            name: image[at..at + 32].try_into().unwrap(),
            label: image[at + 32..at + 64].try_into().unwrap(),
            data_type: [image[at + 64], image[at + 65]],
            dimension_count: u16_at(image, at + 66),
            first_word: u32_at(image, at + 68),
            parent: u32_at(image, at + 72),
            data_offset: u32_at(image, at + 76),
            data_length: u32_at(image, at + 80),
        }
    }

    /// Its bytes.
    pub fn to_bytes(&self) -> [u8; Record::SIZE] {
        let mut bytes = [0; Record::SIZE];
        bytes[..32].copy_from_slice(&self.name);
        bytes[32..64].copy_from_slice(&self.label);
        bytes[64..66].copy_from_slice(&self.data_type);
        bytes[66..68].copy_from_slice(&self.dimension_count.to_le_bytes());
        for (k, word) in [self.first_word, self.parent, self.data_offset, self.data_length].into_iter().enumerate() {
            bytes[68 + 4 * k..72 + 4 * k].copy_from_slice(&word.to_le_bytes());
        }
        bytes
    }
}

/// What the record rules know when they come to a node: the records before it have passed.
struct Walk<'a> {
    header: &'a Header,
    /// All D dimension words.
    words: &'a [u64],
    node: usize,
    /// The depth of each node before, and of this one once rule 7 holds for it.
    depths: Vec<u32>,
    /// Parent and name of each node before.
    names: HashSet<(u32, Text)>,
    /// The sum of the dimension counts before.
    words_before: u64,
    /// The sum of the data lengths before.
    data_before: u64,
}

type RecordRule = (u32, fn(&Walk, &Record) -> bool);

/// The rules of a record, ascending: number, and whether it holds. Those that need no other record are asked of a writer's
/// addition too.
const RECORD_RULES: [RecordRule; 11] = [
    (7, parent_lawful),
    (8, depth_lawful),
    (9, |_, record| name_lawful(&record.name)),
    (10, |_, record| text_lawful(&record.label)),
    (11, name_new),
    (12, |_, record| no_link(&record.data_type)),
    (13, |_, record| data_type_of(&record.data_type).is_some()),
    (14, |_, record| dimension_count_lawful(&record.data_type, u64::from(record.dimension_count))),
    (15, words_in_order),
    (16, lengths_agree),
    (17, data_in_order),
];

/// Rule 7: the root's parent is 4294967295, every other one a lower number.
fn parent_lawful(walk: &Walk, record: &Record) -> bool {
    if walk.node == 0 {
        record.parent == Record::NO_PARENT
    } else {
        (record.parent as usize) < walk.node
    }
}

/// The depth of a node whose parent is lawful: the root's is 0.
fn depth(walk: &Walk, record: &Record) -> u32 {
    if walk.node == 0 {
        0
    } else {
        walk.depths[record.parent as usize] + 1
    }
}

/// Rule 8: the depth is at most 32.
fn depth_lawful(walk: &Walk, record: &Record) -> bool {
    depth(walk, record) <= Record::MAX_DEPTH
}

/// Rule 9: a lawful text without a slash.
pub fn name_lawful(name: &Text) -> bool {
    text_lawful(name) && !name.contains(&b'/')
}

/// Rule 11: no earlier child of the same parent has the name.
fn name_new(walk: &Walk, record: &Record) -> bool {
    !walk.names.contains(&(record.parent, record.name))
}

/// Rule 12: the data type is not LK.
pub fn no_link(data_type: &[u8]) -> bool {
    data_type != b"LK"
}

/// Rule 13: the data type that bytes name, two of them and one of the eleven.
pub fn data_type_of(data_type: &[u8]) -> Option<DataType> {
    data_type.try_into().ok().and_then(DataType::named)
}

/// Rule 14: MT has no dimensions, another type 1 to 12.
pub fn dimension_count_lawful(data_type: &[u8], count: u64) -> bool {
    match data_type_of(data_type) {
        Some(DataType::MT) => count == 0,
        _ => (1..=Record::MAX_DIMENSIONS).contains(&count),
    }
}

/// Rule 15: the first word is the running sum, and the words lie within the D words.
fn words_in_order(walk: &Walk, record: &Record) -> bool {
    let (first, count) = (u64::from(record.first_word), u64::from(record.dimension_count));
    first == walk.words_before && within(first, count, walk.header.dimension_words)
}

/// Whether so many behind the first ones lie within all.
pub fn within(first: u64, count: u64, all: u32) -> bool {
    first.checked_add(count).is_some_and(|end| end <= u64::from(all))
}

/// Rule 16, of a record with its words.
fn lengths_agree(walk: &Walk, record: &Record) -> bool {
    let first = record.first_word as usize;
    let dimensions = &walk.words[first..first + usize::from(record.dimension_count)];
    data_length_fits(&record.data_type, dimensions, u64::from(record.data_length))
}

/// Rule 16: no dimension is 0, and product × width is the data length.
pub fn data_length_fits(data_type: &[u8], dimensions: &[u64], data_length: u64) -> bool {
    let width = data_type_of(data_type).map_or(0, DataType::width);
    !dimensions.contains(&0) && exact_bytes(dimensions, width) == Some(u128::from(data_length))
}

/// Product × width of dimensions none of which is 0; nothing when the product is beyond 64 bits, and so beyond every
/// data length.
fn exact_bytes(dimensions: &[u64], width: usize) -> Option<u128> {
    let mut product = 1u64;
    for &dimension in dimensions {
        product = product.checked_mul(dimension)?;
    }
    Some(u128::from(product) * width as u128)
}

/// Rule 17: the data offset is the running sum, and the data lie within the data area.
fn data_in_order(walk: &Walk, record: &Record) -> bool {
    let (first, count) = (u64::from(record.data_offset), u64::from(record.data_length));
    first == walk.data_before && within(first, count, walk.header.data_length)
}

/// All records and all dimension words of an image with a lawful header, or the first broken of rules 7 to 18.
pub fn check_records(image: &[u8], header: &Header) -> Result<(Vec<Record>, Vec<u64>), Rejection> {
    let words = dimension_words(image, header);
    let count = header.node_count as usize;
    let mut records = Vec::with_capacity(count);
    let mut walk = Walk {
        header,
        words: &words,
        node: 0,
        depths: Vec::with_capacity(count),
        names: HashSet::with_capacity(count),
        words_before: 0,
        data_before: 0,
    };
    for node in 0..count {
        let record = Record::read(image, node);
        walk.node = node;
        for (rule, holds) in RECORD_RULES {
            if !holds(&walk, &record) {
                return Err(Rejection::at_node(rule, node));
            }
        }
        walk.pass(&record);
        records.push(record);
    }
    if !walk.nothing_trailing() {
        return Err(Rejection::at_node(18, count));
    }
    Ok((records, words))
}

impl Walk<'_> {
    /// Takes up a record that has passed.
    fn pass(&mut self, record: &Record) {
        self.depths.push(depth(self, record));
        self.names.insert((record.parent, record.name));
        self.words_before += u64::from(record.dimension_count);
        self.data_before += u64::from(record.data_length);
    }

    /// Rule 18: after all records no word and no data byte is left over.
    fn nothing_trailing(&self) -> bool {
        self.words_before == u64::from(self.header.dimension_words)
            && self.data_before == u64::from(self.header.data_length)
    }
}

/// The D dimension words of an image with a lawful header.
fn dimension_words(image: &[u8], header: &Header) -> Vec<u64> {
    let first = header.dimension_offset as usize;
    (0..header.dimension_words as usize).map(|k| u64_at(image, first + Header::WORD_SIZE * k)).collect()
}
