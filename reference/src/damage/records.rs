//! Damage to records (rules 7 to 18).

use super::header::other_word;
use super::pick::{any_node, some_node, storing_node};
use crate::build::Image;
use crate::lawful::chain;
use crate::random::Random;
use crate::records::Record;

/// A parent that is not lower, or a root with one (rule 7).
pub fn other_parent(image: &mut Image, random: &mut Random) {
    let node = any_node(image, random);
    let count = image.nodes.len() as u32;
    image.nodes[node].parent = match random.below(5) {
        0 if node > 0 => Record::NO_PARENT,
        1 => count,
        2 => count - 1,
        3 if node == 0 => 0,
        _ => node as u32,
    };
}

/// A chain of nodes one too deep (rule 8).
pub fn too_deep(image: &mut Image, random: &mut Random) {
    *image = chain(random, 33);
}

/// A text with one byte that may not stand there.
fn bad_text(random: &mut Random, text: &mut [u8; 32], forbidden: &[u8]) {
    match random.below(4) {
        0 => text[0] = b' ',
        1 => *text = [b' '; 32],
        _ => text[random.index(32)] = *random.pick(forbidden),
    }
}

/// A name with a bad byte (rule 9).
pub fn bad_name(image: &mut Image, random: &mut Random) {
    let node = any_node(image, random);
    bad_text(random, &mut image.nodes[node].name, &[0, 31, 10, 127, 128, 255, b'/', b'/']);
}

/// A label with a bad byte (rule 10).
pub fn bad_label(image: &mut Image, random: &mut Random) {
    let node = any_node(image, random);
    bad_text(random, &mut image.nodes[node].label, &[0, 31, 10, 127, 128, 255]);
}

/// The name of an earlier sibling (rule 11).
pub fn twin_name(image: &mut Image, random: &mut Random) {
    let has_earlier =
        |image: &Image, n: usize| (1..n).any(|earlier| image.nodes[earlier].parent == image.nodes[n].parent);
    let Some(node) = some_node(image, random, has_earlier) else {
        return;
    };
    let parent = image.nodes[node].parent;
    let earlier: Vec<usize> = (1..node).filter(|&n| image.nodes[n].parent == parent).collect();
    image.nodes[node].name = image.nodes[*random.pick(&earlier)].name;
}

/// A link (rule 12).
pub fn link(image: &mut Image, random: &mut Random) {
    let node = any_node(image, random);
    image.nodes[node].data_type = *b"LK";
}

/// A data type that is none (rule 13).
pub fn unknown_type(image: &mut Image, random: &mut Random) {
    let node = any_node(image, random);
    let types = [*b"I2", *b"r4", *b"  ", *b"C2", [0, 0], *b"TM", *b"4I", *b"lk", [255, 255]];
    image.nodes[node].data_type = *random.pick(&types);
}

/// Dimensions under MT, none or too many elsewhere, with their words (rule 14).
pub fn dimension_count_out(image: &mut Image, random: &mut Random) {
    let number = any_node(image, random);
    let node = &mut image.nodes[number];
    if node.data_type == *b"MT" {
        node.dimensions = vec![1; 1 + random.index(3)];
    } else if random.one_in(2) {
        node.dimensions = Vec::new();
    } else {
        node.dimensions.resize(13 + random.index(3), 1);
    }
}

/// Another dimension count, without words for it (rules 14 and 15).
pub fn dimension_count_word(image: &mut Image, random: &mut Random) {
    let node = any_node(image, random);
    image.nodes[node].dimension_count = Some(*random.pick(&[0, 13, 255, 256, 65_535]));
}

/// Another first dimension word (rule 15).
pub fn other_first_word(image: &mut Image, random: &mut Random) {
    let node = any_node(image, random);
    let sum: usize = image.nodes[..node].iter().map(|n| n.dimensions.len()).sum();
    image.nodes[node].first_word = Some(other_word(random, sum as u32));
}

/// Fewer words than the records ask for (rule 15).
pub fn words_missing(image: &mut Image, random: &mut Random) {
    image.missing_words = 1 + random.index(3);
}

/// One word past the end (rule 15).
pub fn one_word_more(image: &mut Image, _random: &mut Random) {
    if let Some(last) = image.nodes.iter_mut().rev().find(|n| !n.data.is_empty()) {
        last.dimension_count = Some(last.dimensions.len() as u16 + 1);
    }
}

/// A dimension of 0, with data or without (rule 16).
pub fn zero_dimension(image: &mut Image, random: &mut Random) {
    let Some(number) = storing_node(image, random) else {
        return;
    };
    let node = &mut image.nodes[number];
    let place = random.index(node.dimensions.len());
    node.dimensions[place] = 0;
    if random.one_in(2) {
        node.data.clear();
    }
}

/// Another dimension (rule 16).
pub fn other_dimension(image: &mut Image, random: &mut Random) {
    let Some(number) = storing_node(image, random) else {
        return;
    };
    let node = &mut image.nodes[number];
    let place = random.index(node.dimensions.len());
    let old = node.dimensions[place];
    node.dimensions[place] = match random.below(5) {
        0 => old + 1,
        1 => u64::MAX,
        2 => old | 1 << 32,
        3 => old | 1 << 63,
        _ => 2 * old,
    };
}

/// Dimensions whose exact product is far too large, and whose product in 64 (or 32) bits is the right one.
pub fn wrapping_product(image: &mut Image, random: &mut Random) {
    let Some(number) = storing_node(image, random) else {
        return;
    };
    let node = &mut image.nodes[number];
    let values: u64 = node.dimensions.iter().product();
    let odd = random.bits() | 1;
    node.dimensions = match random.below(4) {
        0 => vec![odd, inverse(odd).wrapping_mul(values)],
        1 => vec![1 << 32, 1 << 32, values],
        2 => vec![values + (1 << 32)],
        _ => vec![odd, inverse(odd), values],
    };
}

/// The number whose product with an odd number is 1 in 64 bits.
fn inverse(odd: u64) -> u64 {
    let mut guess = odd;
    for _ in 0..6 {
        guess = guess.wrapping_mul(2u64.wrapping_sub(odd.wrapping_mul(guess)));
    }
    guess
}

/// Data under MT (rule 16).
pub fn data_under_mt(image: &mut Image, random: &mut Random) {
    if let Some(node) = some_node(image, random, |image, n| image.nodes[n].data_type == *b"MT") {
        image.nodes[node].data = vec![7; 1 + random.index(4)];
    }
}

/// Another data length (rule 16).
pub fn other_data_length(image: &mut Image, random: &mut Random) {
    let node = any_node(image, random);
    let old = image.nodes[node].data.len() as u32;
    image.nodes[node].data_length = Some(other_word(random, old));
}

/// Another data offset (rule 17).
pub fn other_data_offset(image: &mut Image, random: &mut Random) {
    let node = any_node(image, random);
    let sum: usize = image.nodes[..node].iter().map(|n| n.data.len()).sum();
    image.nodes[node].data_offset = Some(other_word(random, sum as u32));
}

/// Fewer data bytes than the records ask for (rule 17).
pub fn data_missing(image: &mut Image, random: &mut Random) {
    image.missing_data = 1 + random.index(12);
}

/// Words or data bytes left over (rule 18).
pub fn trailing(image: &mut Image, random: &mut Random) {
    let kind = random.below(3);
    if kind != 1 {
        image.trailing_words = vec![1; 1 + random.index(3)];
    }
    if kind != 0 {
        image.trailing_data = vec![0; 1 + random.index(9)];
    }
}
