//! Damage to the header (rules 1 to 6) and to any bytes.

use crate::header::{Header, MAX_IMAGE};
use crate::random::Random;
use crate::records::Record;

/// Writes a word of 32 bits into the bytes, if they are there.
pub fn put_word(bytes: &mut [u8], at: usize, word: u32) {
    if let Some(place) = bytes.get_mut(at..at + 4) {
        place.copy_from_slice(&word.to_le_bytes());
    }
}

/// The word of 32 bits in the bytes, 0 if they are not there.
pub fn word(bytes: &[u8], at: usize) -> u32 {
    bytes.get(at..at + 4).map_or(0, |b| u32::from_le_bytes(b.try_into().unwrap()))
}

/// A word near another one, or far from it.
pub fn other_word(random: &mut Random, old: u32) -> u32 {
    let new = match random.below(8) {
        0 => old.wrapping_add(1),
        1 => old.wrapping_sub(1),
        2 => 0,
        3 => u32::MAX,
        4 => old ^ 0x8000_0000,
        5 => old.wrapping_add(84),
        6 => old.wrapping_sub(8),
        _ => random.bits() as u32,
    };
    if new == old {
        old ^ 1
    } else {
        new
    }
}

/// Fewer bytes than a header has (rule 1).
pub fn cut_short(bytes: &mut Vec<u8>, random: &mut Random) {
    bytes.truncate(random.index(32));
}

/// One byte more than an image may have (rule 1); small images stay as they are.
pub fn too_long(bytes: &mut Vec<u8>, _random: &mut Random) {
    if bytes.len() > 100_000 {
        bytes.resize(MAX_IMAGE + 1, 0);
    }
}

/// Another form word (rule 2).
pub fn other_form(bytes: &mut [u8], random: &mut Random) {
    put_word(bytes, 0, other_word(random, 1));
}

/// Another total length word (rule 3).
pub fn other_length(bytes: &mut [u8], random: &mut Random) {
    let new = other_word(random, word(bytes, 4));
    put_word(bytes, 4, new);
}

/// Bytes after the end (rule 3).
pub fn more_bytes(bytes: &mut Vec<u8>, random: &mut Random) {
    bytes.resize(bytes.len() + 1 + random.index(9), 0);
}

/// Bytes cut off at the end (rule 3).
pub fn fewer_bytes(bytes: &mut Vec<u8>, random: &mut Random) {
    let kept = bytes.len().saturating_sub(1 + random.index(40));
    bytes.truncate(kept.max(32));
}

/// No node, or too many (rule 4).
pub fn node_count_out(bytes: &mut [u8], random: &mut Random) {
    put_word(bytes, 8, *random.pick(&[0, 0, 4_097, 5_000, u32::MAX]));
}

/// Too many dimension words (rule 5).
pub fn word_count_out(bytes: &mut [u8], random: &mut Random) {
    put_word(bytes, 20, *random.pick(&[49_153, 60_000, u32::MAX]));
}

/// Another offset or data length (rule 6).
pub fn other_offset(bytes: &mut [u8], random: &mut Random) {
    let at = *random.pick(&[12, 16, 24, 28]);
    let new = other_word(random, word(bytes, at));
    put_word(bytes, at, new);
}

/// A count one off, which the offsets do not follow (rule 6).
pub fn other_count(bytes: &mut [u8], random: &mut Random) {
    let at = *random.pick(&[8, 20]);
    let old = word(bytes, at);
    put_word(bytes, at, if random.one_in(2) { old + 1 } else { old.saturating_sub(1) });
}

/// Changes a few bytes: anywhere, in the header, in the numbers of the records, or in words and data.
pub fn flips(bytes: &mut [u8], random: &mut Random) {
    for _ in 0..1 + random.below(3) {
        let at = flip_place(bytes, random);
        let Some(byte) = bytes.get_mut(at) else {
            return;
        };
        match random.below(4) {
            0 => *byte ^= 1 << random.below(8),
            1 => *byte = random.bits() as u8,
            2 => *byte = *random.pick(&[0, 1, 255, 127, 128, 32, 47]),
            _ => {
                let word = *random.pick(&[0, 1, u32::MAX, 1 << 31, (1 << 31) - 1]);
                put_word(bytes, at & !3, word);
            }
        }
    }
}

/// A byte to be changed.
fn flip_place(bytes: &[u8], random: &mut Random) -> usize {
    let record = Header::SIZE + Record::SIZE * random.index(word(bytes, 8) as usize);
    let words = word(bytes, 16) as usize;
    match random.below(10) {
        0 => random.index(Header::SIZE),
        1 | 2 => record + 64 + random.index(20),
        3 => record + random.index(64),
        4 => random.index(bytes.len()),
        _ => words + random.index(bytes.len().saturating_sub(words)),
    }
}
