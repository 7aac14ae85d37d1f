//! Additions that break a rule each of 7 to 17, made of the right one.

use crate::addition::Addition;
use crate::random::Random;
use crate::records::{data_type_of, Record};
use crate::text::{padded, trimmed};
use crate::writer::State;

/// Where an addition is to be damaged: the nodes added before it, and the state.
pub struct Site<'a> {
    pub before: &'a [Addition],
    pub state: &'a State,
}

/// A damage: whether it could be done.
type Damage = fn(&mut Addition, &Site, &mut Random) -> bool;

/// The rules of an addition, each with its damage.
pub const DAMAGES: [(u32, Damage); 11] = [
    (7, parent),
    (8, depth),
    (9, name),
    (10, |addition, _, random| text(&mut addition.label, random)),
    (11, sibling),
    (12, |addition, _, _| changed(&mut addition.data_type, b"LK".to_vec())),
    (13, unknown_type),
    (14, rank),
    (15, words),
    (16, product),
    (17, data),
];

/// Gives a field another value.
fn changed<T: PartialEq>(field: &mut T, value: T) -> bool {
    let other = *field != value;
    *field = value;
    other
}

/// The most bytes that a damage makes.
const MOST: u64 = 1 << 16;

fn parent(addition: &mut Addition, site: &Site, random: &mut Random) -> bool {
    let (right, number) = (addition.parent, u64::from(site.state.nodes));
    let none = u64::from(Record::NO_PARENT);
    let odd =
        [number, number + 1, none, right.wrapping_add(1 << 32), none + (1 << 32), 1 << 63, u64::MAX, right ^ (1 << 31)];
    changed(&mut addition.parent, *random.pick(&odd))
}

/// A node at depth 32 as parent, where there is one.
fn depth(addition: &mut Addition, site: &Site, random: &mut Random) -> bool {
    let mut depths: Vec<u32> = Vec::new();
    for (number, node) in site.before.iter().enumerate() {
        let parent = node.parent as usize;
        depths.push(if number == 0 { 0 } else { depths.get(parent).map_or(0, |depth| depth + 1) });
    }
    let deep: Vec<usize> = (0..depths.len()).filter(|&node| depths[node] == Record::MAX_DEPTH).collect();
    if deep.is_empty() {
        return false;
    }
    changed(&mut addition.parent, *random.pick(&deep) as u64)
}

fn name(addition: &mut Addition, _: &Site, random: &mut Random) -> bool {
    if random.one_in(4) && !addition.name.is_empty() {
        let place = random.index(addition.name.len());
        addition.name[place] = b'/';
        return true;
    }
    text(&mut addition.name, random)
}

/// An unlawful text: too long, empty, blank in front, or with a byte that is none of 32 to 126.
fn text(text: &mut Vec<u8>, random: &mut Random) -> bool {
    if text.is_empty() {
        return false;
    }
    match random.below(6) {
        0 => {
            text.resize(32, b' ');
            text.extend((0..=random.below(9)).map(|_| *random.pick(b" x")));
        }
        1 => text.clear(),
        2 => text[0] = b' ',
        3 => *text = vec![b' '; 1 + random.index(32)],
        _ => {
            let place = random.index(text.len());
            text[place] = *random.pick(&[0, 10, 31, 127, 128, 160, 255]);
        }
    }
    true
}

/// The name of a node with the same parent, with or without the blanks behind it.
fn sibling(addition: &mut Addition, site: &Site, random: &mut Random) -> bool {
    let siblings: Vec<&Addition> = site.before.iter().filter(|node| node.parent == addition.parent).collect();
    if siblings.is_empty() || site.before.is_empty() {
        return false;
    }
    let whole = padded(&random.pick(&siblings).name);
    addition.name = if random.one_in(2) { whole.to_vec() } else { trimmed(&whole).to_vec() };
    true
}

fn unknown_type(addition: &mut Addition, _: &Site, random: &mut Random) -> bool {
    let mut known = addition.data_type.clone();
    let types: [&[u8]; 12] = [b"", b"I", b"I4 ", b"LKx", b"lk", b"i4", b"R2", b"C4", b"XX", b"4I", b"\0\0", b"I\xb4"];
    addition.data_type = match random.below(6) {
        0 => {
            known.push(*random.pick(b" \0I4"));
            known
        }
        1 => known[..random.index(known.len().max(1))].to_vec(),
        _ => random.pick(&types).to_vec(),
    };
    true
}

/// Too few or too many dimensions of 1; now and then so many that 16 bits do not hold their number.
fn rank(addition: &mut Addition, _: &Site, random: &mut Random) -> bool {
    let right = addition.dimensions.len();
    let count = match random.below(24) {
        0 => (1 << 16) + right % (1 << 16),
        1..9 if right > 0 => 0,
        9..12 => 13 + random.index(250),
        _ if right == 0 => 1 + random.index(14),
        _ => 13 + random.index(3),
    };
    addition.dimensions.resize(count, 1);
    count != right
}

/// Dimensions of 1 up to more words than are left.
fn words(addition: &mut Addition, site: &Site, random: &mut Random) -> bool {
    let left = site.state.dimension_words.saturating_sub(site.state.words) as usize;
    let most = Record::MAX_DIMENSIONS as usize;
    if left >= most {
        return false;
    }
    if addition.data_type == b"MT" {
        (addition.data_type, addition.data) = (b"B1".to_vec(), vec![7]);
    }
    let count = left + 1 + random.index(most - left);
    addition.dimensions.resize(count.max(addition.dimensions.len()), 1);
    true
}

/// A dimension of 0, or a product that is not the data length: one more or less, or the same in its lower bits.
fn product(addition: &mut Addition, _: &Site, random: &mut Random) -> bool {
    let width = data_type_of(&addition.data_type).map_or(0, |data_type| data_type.width() as u64);
    if addition.dimensions.is_empty() || width == 0 {
        addition.data = vec![3; 1 + random.index(9)];
        return true;
    }
    let place = random.index(addition.dimensions.len());
    match random.below(9) {
        0 => addition.dimensions[place] = 0,
        1 => {
            addition.dimensions[place] = 0;
            addition.data.clear();
        }
        2 => addition.data.push(0),
        3 => drop(addition.data.pop()),
        4 => more(&mut addition.dimensions[place], 1),
        5 => addition.data.truncate(random.index(addition.data.len() + 1) / 2),
        6 => more(&mut addition.dimensions[place], *random.pick(&[1 << 32, (1 << 32) / width, 1 << 63])),
        7 => more(&mut addition.dimensions[place], ((1u128 << 64) / u128::from(width)) as u64),
        _ => wrap(&mut addition.dimensions, random),
    }
    true
}

fn more(dimension: &mut u64, by: u64) {
    *dimension = dimension.wrapping_add(by);
}

/// Two dimensions whose product has the lower 64 bits of the product of all.
fn wrap(dimensions: &mut Vec<u64>, random: &mut Random) {
    let product = dimensions.iter().fold(1u64, |product, &dimension| product.wrapping_mul(dimension));
    let one = random.bits() | 1;
    let mut inverse = one;
    for _ in 0..5 {
        inverse = inverse.wrapping_mul(2u64.wrapping_sub(one.wrapping_mul(inverse)));
    }
    *dimensions = vec![one, product.wrapping_mul(inverse)];
}

/// More data than bytes are left.
fn data(addition: &mut Addition, site: &Site, random: &mut Random) -> bool {
    let left = u64::from(site.state.data_length.saturating_sub(site.state.bytes));
    let words = site.state.dimension_words.saturating_sub(site.state.words);
    if left > MOST || words == 0 {
        return false;
    }
    let length = left + 1 + random.below(5);
    addition.data_type = random.pick(&[b"C1", b"B1"]).to_vec();
    addition.dimensions = vec![length];
    addition.data = vec![0x5a; length as usize];
    true
}
