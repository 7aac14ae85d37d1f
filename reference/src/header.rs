//! The image's header (document 01, "The image"): eight words, and rules 1 to 6.

use crate::bytes::u32_at;
use crate::records::Record;
use crate::rejection::Rejection;

/// Rule 1: the longest image.
pub const MAX_IMAGE: usize = 16_777_216;
/// Rule 4: the greatest node count N.
pub const MAX_NODES: u32 = 4_096;
/// Rule 5: the greatest dimension word count D.
pub const MAX_WORDS: u32 = 49_152;

/// The eight words of the header, in their order.
#[derive(Clone, Copy, Debug, PartialEq, Eq)]
pub struct Header {
    pub form: u32,
    pub total_length: u32,
    pub node_count: u32,
    pub record_offset: u32,
    pub dimension_offset: u32,
    pub dimension_words: u32,
    pub data_offset: u32,
    pub data_length: u32,
}

impl Header {
    /// Bytes of the header.
    pub const SIZE: usize = 32;
    /// The one form there is.
    pub const FORM: u32 = 1;
    /// Bytes of a dimension word.
    pub const WORD_SIZE: usize = 8;

    /// The header of an image of at least 32 bytes.
    fn read(image: &[u8]) -> Header {
        Header {
            form: u32_at(image, 0),
            total_length: u32_at(image, 4),
            node_count: u32_at(image, 8),
            record_offset: u32_at(image, 12),
            dimension_offset: u32_at(image, 16),
            dimension_words: u32_at(image, 20),
            data_offset: u32_at(image, 24),
            data_length: u32_at(image, 28),
        }
    }

    /// The header of an image with so many nodes, dimension words and data bytes; nothing where its length is beyond 32
    /// bits.
    pub fn of(node_count: u32, dimension_words: u32, data_length: u32) -> Option<Header> {
        let total = Header::length(u64::from(node_count), u64::from(dimension_words), u64::from(data_length));
        let total_length = u32::try_from(total).ok()?;
        let data_offset = total_length - data_length;
        Some(Header {
            form: Header::FORM,
            total_length,
            node_count,
            record_offset: Header::SIZE as u32,
            dimension_offset: data_offset - Header::WORD_SIZE as u32 * dimension_words,
            dimension_words,
            data_offset,
            data_length,
        })
    }

    /// The exact length of an image with so many nodes, dimension words and data bytes.
    pub fn length(nodes: u64, words: u64, bytes: u64) -> u128 {
        let parts = [(Record::SIZE, nodes), (Header::WORD_SIZE, words), (1, bytes)];
        Header::SIZE as u128 + parts.map(|(size, count)| size as u128 * u128::from(count)).iter().sum::<u128>()
    }

    /// Its bytes.
    pub fn to_bytes(&self) -> [u8; Header::SIZE] {
        let words = [
            self.form,
            self.total_length,
            self.node_count,
            self.record_offset,
            self.dimension_offset,
            self.dimension_words,
            self.data_offset,
            self.data_length,
        ];
        let mut bytes = [0; Header::SIZE];
        for (place, word) in bytes.chunks_exact_mut(4).zip(words) {
            place.copy_from_slice(&word.to_le_bytes());
        }
        bytes
    }

    /// Whether offsets and data length are as laid down (rule 6), by exact sums.
    fn laid_out(&self) -> bool {
        let records = Header::SIZE as u64;
        let dimensions = records + Record::SIZE as u64 * u64::from(self.node_count);
        let data = dimensions + Header::WORD_SIZE as u64 * u64::from(self.dimension_words);
        u64::from(self.record_offset) == records
            && u64::from(self.dimension_offset) == dimensions
            && u64::from(self.data_offset) == data
            && data + u64::from(self.data_length) == u64::from(self.total_length)
    }
}

/// The rules of a header that was read, ascending: number, and whether it holds for an image of that length.
type HeaderRule = (u32, fn(&Header, usize) -> bool);
const HEADER_RULES: [HeaderRule; 5] = [
    (2, |h, _| h.form == Header::FORM),
    (3, |h, length| h.total_length as usize == length),
    (4, |h, _| (1..=MAX_NODES).contains(&h.node_count)),
    (5, |h, _| h.dimension_words <= MAX_WORDS),
    (6, |h, _| h.laid_out()),
];

/// The header, or the first broken of rules 1 to 6, at node 0.
pub fn check_header(image: &[u8]) -> Result<Header, Rejection> {
    if image.len() < Header::SIZE || image.len() > MAX_IMAGE {
        return Err(Rejection::at_node(1, 0));
    }
    let header = Header::read(image);
    for (rule, holds) in HEADER_RULES {
        if !holds(&header, image.len()) {
            return Err(Rejection::at_node(rule, 0));
        }
    }
    Ok(header)
}
