//! A second child of a label that has a fixed name: under that name (rule 11), or under another one (rule 21).

use super::pick::{add_anywhere, labelled, plain_node};
use crate::build::{Image, Node};
use crate::random::Random;
use crate::text::padded;

/// The root as a parent, whatever its label.
const ROOT: &str = "root";

/// Labels that their parents may have once only.
const ONCE_ONLY: [(&str, &str); 6] = [
    (ROOT, "CGNSLibraryVersion_t"),
    ("Zone_t", "ZoneType_t"),
    ("GridCoordinates_t", "Rind_t"),
    ("FlowSolution_t", "Rind_t"),
    ("FlowSolution_t", "GridLocation_t"),
    ("Elements_t", "Rind_t"),
];

/// The other labels with a fixed name.
const FIXED_NAME: [(&str, &str); 3] =
    [("Elements_t", "IndexRange_t"), ("FlowSolution_t", "IndexRange_t"), ("FlowSolution_t", "IndexArray_t")];

/// A second node of a label allowed once, under its fixed name (rule 11).
pub fn second_under_fixed_name(image: &mut Image, random: &mut Random) {
    let (parent, label) = *random.pick(&ONCE_ONLY);
    if let Some((parent, second)) = second_of(image, random, parent, label) {
        add_anywhere(image, random, parent, second);
    }
}

/// A second node of a label with a fixed name, under another name (rule 21).
pub fn second_under_other_name(image: &mut Image, random: &mut Random) {
    let place = random.index(ONCE_ONLY.len() + FIXED_NAME.len());
    let found = match ONCE_ONLY.get(place) {
        Some(&(parent, label)) => second_of(image, random, parent, label),
        None => {
            let (parent, label) = FIXED_NAME[place - ONCE_ONLY.len()];
            labelled(image, random, parent).map(|parent| (parent, plain_node(random, "", label)))
        }
    };
    if let Some((parent, second)) = found {
        let name = other_name(random, second.label);
        add_anywhere(image, random, parent, Node { name, ..second });
    }
}

/// A parent that has a node of a label allowed once, and another node like that one. Where the parent had none it is
/// given one, which is lawful.
fn second_of(image: &mut Image, random: &mut Random, parent: &str, label: &str) -> Option<(usize, Node)> {
    let parent = if parent == ROOT { 0 } else { labelled(image, random, parent)? };
    let known = image.children(parent).into_iter().find(|&n| image.nodes[n].is_labelled(label));
    if let Some(first) = known {
        return Some((parent, image.nodes[first].clone()));
    }
    let mut first = plain_node(random, label.trim_end_matches("_t"), label);
    if label == "Rind_t" {
        let zone = image.parent(parent)?;
        let directions = *image.nodes[zone].dimensions.first()?;
        first.reshape(&[2 * directions.min(3)]);
    }
    add_anywhere(image, random, parent, first.clone());
    Some((parent, first))
}

/// A name that is not the fixed one of a label; often nearly so.
fn other_name(random: &mut Random, label: [u8; 32]) -> [u8; 32] {
    let length = label.iter().position(|&byte| byte == b'_').unwrap_or(label.len());
    let mut name = padded(&label[..length]);
    match random.below(5) {
        0 => name[31] = b'.',
        1 => name[length] = b'1',
        2 => name[length - 1] = b' ',
        3 => name[0] = name[0].to_ascii_lowercase(),
        _ => name = padded(b"Second"),
    }
    name
}
