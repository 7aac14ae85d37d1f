//! Small trees of any data types, where an image has no nodes to take.

use crate::addition::Addition;
use crate::random::Random;
use crate::records::{data_type_of, Record};

/// The data types, LK not among them.
const TYPES: [&[u8; 2]; 11] = [b"MT", b"C1", b"B1", b"I4", b"U4", b"R4", b"I8", b"U8", b"R8", b"X4", b"X8"];

/// A root and up to 19 nodes below it; their texts are of any bytes and lengths.
pub fn tree(random: &mut Random) -> Vec<Addition> {
    let mut nodes: Vec<Addition> = Vec::new();
    for number in 0..1 + random.below(20) {
        let parent = if number == 0 { u64::from(Record::NO_PARENT) } else { random.below(number) };
        nodes.push(node(random, number, parent));
    }
    nodes
}

/// A chain of so many nodes below a root.
pub fn chain(random: &mut Random, length: u64) -> Vec<Addition> {
    (0..=length).map(|number| node(random, number, number.checked_sub(1).unwrap_or(Record::NO_PARENT.into()))).collect()
}

/// So many nodes below a root, each a child of it.
pub fn family(random: &mut Random, count: u64) -> Vec<Addition> {
    (0..=count).map(|number| node(random, number, if number == 0 { Record::NO_PARENT.into() } else { 0 })).collect()
}

/// A node whose name no node of another number has.
fn node(random: &mut Random, number: u64, parent: u64) -> Addition {
    let data_type = *random.pick(&TYPES);
    let mut name = vec![b'!' + number as u8 % 8, b'a' + number as u8 / 8];
    name.extend(text(random, 30).into_iter().map(|byte| if byte == b'/' { b'|' } else { byte }));
    let mut label = vec![*random.pick(b"/~!A")];
    label.extend(text(random, 31));
    let mut addition =
        Addition { name, label, data_type: data_type.to_vec(), dimensions: Vec::new(), parent, data: Vec::new() };
    if data_type != b"MT" {
        let rank = if random.one_in(6) { 12 } else { 1 + random.index(3) };
        addition.dimensions = (0..rank).map(|k| if k < 3 { 1 + random.below(3) } else { 1 }).collect();
        random.shuffle(&mut addition.dimensions);
        let width = data_type_of(data_type).map_or(0, |data_type| data_type.width() as u64);
        let length = width * addition.dimensions.iter().product::<u64>();
        addition.data = (0..length).map(|_| random.bits() as u8).collect();
    }
    addition
}

/// Lawful bytes, up to so many.
fn text(random: &mut Random, most: usize) -> Vec<u8> {
    let length = if random.one_in(4) { most } else { random.index(most + 1) };
    (0..length).map(|_| 32 + random.below(95) as u8).collect()
}
