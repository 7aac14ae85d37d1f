//! Names of siblings, lawful and all different: what they share, and where they part.

use std::collections::HashSet;

use crate::random::Random;
use crate::text::{padded, Text};

/// Names of some kind, at most so many.
pub type Names = fn(&mut Random, usize) -> Vec<Text>;

/// The kinds that give as many names as are asked for.
pub const KINDS: [Names; 5] = [first_byte, last_byte, numbered, branching, blanks];

/// The bytes that a name may have, in any order; the blank not in front.
fn lawful_bytes(random: &mut Random, in_front: bool) -> Vec<u8> {
    let mut bytes: Vec<u8> = (32..=126).filter(|&byte| byte != b'/' && !(in_front && byte == b' ')).collect();
    random.shuffle(&mut bytes);
    bytes
}

/// A byte of a name that is another than this one, at a place of it.
fn other_byte(random: &mut Random, byte: u8, place: usize) -> u8 {
    loop {
        let other = random.between(32, 126) as u8;
        if ![byte, b'/'].contains(&other) && (place > 0 || other != b' ') {
            return other;
        }
    }
}

/// A name with another byte at a place.
pub fn changed(random: &mut Random, name: Text, place: usize) -> Text {
    let mut other = name;
    other[place] = other_byte(random, name[place], place);
    other
}

/// A name of 32 bytes, none of which is a blank.
fn full(random: &mut Random) -> Text {
    [(); 32].map(|()| other_byte(random, b' ', 1))
}

/// Names of 32 bytes that agree in all but one; where these are not enough, in all but that and the one before or behind.
fn parted_at(random: &mut Random, place: usize, count: usize) -> Vec<Text> {
    let stem = full(random);
    let bytes = lawful_bytes(random, place == 0);
    let beside = if place == 0 { 1 } else { place - 1 };
    let others = bytes.iter().copied().filter(|&byte| byte != b' ' && byte != stem[beside]);
    let mut names = Vec::new();
    for other in [stem[beside]].into_iter().chain(others) {
        names.extend(bytes.iter().map(|&byte| {
            let mut name = stem;
            (name[beside], name[place]) = (other, byte);
            name
        }));
    }
    names.truncate(count);
    names
}

/// Names that differ in the first byte.
pub fn first_byte(random: &mut Random, count: usize) -> Vec<Text> {
    parted_at(random, 0, count)
}

/// Names of 32 bytes that differ in the last one alone.
pub fn last_byte(random: &mut Random, count: usize) -> Vec<Text> {
    parted_at(random, 31, count)
}

/// A name, and names that differ from it in one byte each, every time another; up to 33.
pub fn ladder(random: &mut Random, count: usize) -> Vec<Text> {
    let stem = full(random);
    let mut names: Vec<Text> = (0..stem.len()).map(|place| changed(random, stem, place)).collect();
    names.push(stem);
    random.shuffle(&mut names);
    names.truncate(count);
    names
}

/// Names of which each begins with every shorter one, so that a blank of the padding differs; up to 32.
pub fn prefixes(random: &mut Random, count: usize) -> Vec<Text> {
    let stem = full(random);
    let mut names: Vec<Text> = (1..=stem.len()).map(|length| padded(&stem[..length])).collect();
    random.shuffle(&mut names);
    names.truncate(count);
    names
}

/// Names with numbers from 1 on, some with zeros in front.
pub fn numbered(random: &mut Random, count: usize) -> Vec<Text> {
    let stem = *random.pick(&["Zone", "Zone ", "z", "Blade_passage_of_the_stage_"]);
    let width = *random.pick(&[0, 0, 4]);
    (1..=count).map(|k| padded(format!("{stem}{k:0width$}").as_bytes())).collect()
}

/// Names of which each shares any number of bytes with an earlier one, and often the rest as well.
pub fn branching(random: &mut Random, count: usize) -> Vec<Text> {
    let mut names = vec![full(random)];
    different(&mut names, count, |names| {
        let place = random.index(32);
        let earlier = *random.pick(names);
        let mut name = changed(random, earlier, place);
        match random.below(4) {
            0 => name[place + 1..].fill(b' '),
            1 => name[place + 1..].copy_from_slice(&full(random)[place + 1..]),
            _ => (),
        }
        name
    });
    names
}

/// Names of one letter and blanks.
pub fn blanks(random: &mut Random, count: usize) -> Vec<Text> {
    let mut names = Vec::new();
    different(&mut names, count, |_| {
        let mut name = [(); 32].map(|()| *random.pick(b" a"));
        name[0] = b'a';
        name[1 + random.index(32)..].fill(b' ');
        name
    });
    names
}

/// Adds names until there are so many; one that is there already is left out.
fn different(names: &mut Vec<Text>, count: usize, mut next: impl FnMut(&[Text]) -> Text) {
    let mut known: HashSet<Text> = names.iter().copied().collect();
    while names.len() < count {
        let name = next(names);
        if known.insert(name) {
            names.push(name);
        }
    }
    names.truncate(count);
}
