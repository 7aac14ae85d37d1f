//! Damage to sections (rules 27 to 37). For rule 38 see `stored_types.rs`, for rule 39
//! `parent_arrays.rs`.

use super::pick::{change, labelled, section, section_child};
use super::stored_types::type_places;
use super::values::break_type;
use crate::build::Image;
use crate::elements::{MIXED, NFACE_N, NGON_N};
use crate::lawful::FIXED_TYPES;
use crate::random::Random;
use crate::sizes::MAX_NUMBER;
use crate::text::padded;

/// The element types that have start offsets.
const WITH_OFFSETS: [i64; 3] = [MIXED, NGON_N, NFACE_N];

/// An element type that is not supported (rule 27).
pub fn other_element_type(image: &mut Image, random: &mut Random) {
    if let Some(node) = section(image, random) {
        let types = [0, 1, 24, 25, 39, 56, 57, -1, -20, -22, 276, 278, 65_558, MAX_NUMBER, i64::from(i32::MIN)];
        change(image, node, 0, *random.pick(&types));
    }
}

/// The two numbers of a range, where it has two.
fn range_of(image: &Image, node: usize) -> Option<(i64, i64)> {
    match image.nodes[node].numbers()[..] {
        [first, last] => Some((first, last)),
        _ => None,
    }
}

/// A range that meets that of another section (rule 28).
pub fn meeting_ranges(image: &mut Image, random: &mut Random) {
    let Some(moved) = section(image, random) else {
        return;
    };
    let zone = image.nodes[moved].parent as usize;
    let others: Vec<usize> =
        image.children(zone).into_iter().filter(|&n| n != moved && image.nodes[n].is_labelled("Elements_t")).collect();
    if others.is_empty() {
        return;
    }
    let other = *random.pick(&others);
    let (Some(from), Some(to)) = (image.child(moved, "ElementRange"), image.child(other, "ElementRange")) else {
        return;
    };
    let (Some((first, last)), Some((low, high))) = (range_of(image, from), range_of(image, to)) else {
        return;
    };
    let count = last.saturating_sub(first).clamp(0, MAX_NUMBER - 1);
    let first = if random.one_in(2) { high } else { low.saturating_sub(count) };
    let first = first.clamp(1, MAX_NUMBER - count);
    image.nodes[from].set_numbers(&[first, first + count]);
}

/// A range with more or fewer elements (rule 29).
pub fn other_range_length(image: &mut Image, random: &mut Random) {
    let Some(section) = section(image, random) else {
        return;
    };
    let Some(range) = image.child(section, "ElementRange") else {
        return;
    };
    if let Some((first, last)) = range_of(image, range) {
        let other = match random.below(4) {
            0 => [first, last.saturating_add(1).min(MAX_NUMBER)],
            1 => [first.saturating_sub(1).max(1), last],
            2 => [first.saturating_add(1).min(last), last],
            _ => [1, MAX_NUMBER],
        };
        image.nodes[range].set_numbers(&other);
    }
}

/// Connectivity or start offsets one longer or shorter (rules 29 and 32).
pub fn other_array_length(image: &mut Image, random: &mut Random) {
    let Some(section) = section(image, random) else {
        return;
    };
    let name = *random.pick(&["ElementConnectivity", "ElementStartOffset"]);
    if let Some(array) = image.child(section, name) {
        let mut numbers = image.nodes[array].numbers();
        if random.one_in(2) || numbers.len() < 2 {
            numbers.push(numbers.last().map_or(1, |last| last.saturating_add(1)));
        } else {
            numbers.pop();
        }
        image.nodes[array].set_list(&numbers);
    }
}

/// Start offsets absent or not conforming (rule 29).
pub fn no_offsets(image: &mut Image, random: &mut Random) {
    if let Some(offsets) = section_child(image, random, &WITH_OFFSETS, "ElementStartOffset") {
        lose_offsets(image, random, offsets);
    }
}

/// Takes start offsets away, or lets them not conform.
pub fn lose_offsets(image: &mut Image, random: &mut Random, offsets: usize) {
    match random.below(4) {
        0 => image.remove(offsets),
        1 => image.nodes[offsets].name = padded(b"elementStartOffset"),
        2 => image.nodes[offsets].data_type = if image.nodes[offsets].width() == 4 { *b"U4" } else { *b"U8" },
        _ => image.nodes[offsets].dimensions.push(1),
    }
}

/// A first start offset other than 0 (rule 30).
pub fn first_offset(image: &mut Image, random: &mut Random) {
    if let Some(offsets) = section_child(image, random, &WITH_OFFSETS, "ElementStartOffset") {
        let number = *random.pick(&[1, -1, 2, i64::from(i32::MIN), MAX_NUMBER, i64::MIN]);
        change(image, offsets, 0, number);
    }
}

/// A start offset not above its predecessor (rule 31).
pub fn offset_not_rising(image: &mut Image, random: &mut Random) {
    if let Some(offsets) = section_child(image, random, &WITH_OFFSETS, "ElementStartOffset") {
        let numbers = image.nodes[offsets].numbers();
        let place = 1 + random.index(numbers.len().max(2) - 1);
        if let Some(&before) = numbers.get(place - 1) {
            let choices = [before, before.saturating_sub(1), -1, 0, i64::from(i32::MIN), MAX_NUMBER];
            change(image, offsets, place, *random.pick(&choices));
        }
    }
}

/// Another last start offset (rule 32).
pub fn last_offset(image: &mut Image, random: &mut Random) {
    if let Some(offsets) = section_child(image, random, &WITH_OFFSETS, "ElementStartOffset") {
        let numbers = image.nodes[offsets].numbers();
        if let Some(&last) = numbers.last() {
            let (below, above, far) = (last.saturating_sub(1), last.saturating_add(1), last.saturating_add(256));
            let choices = [below, above, MAX_NUMBER, far, i64::MAX];
            change(image, offsets, numbers.len() - 1, *random.pick(&choices));
        }
    }
}

/// Connectivity one longer or shorter (rule 32).
pub fn connectivity_longer(image: &mut Image, random: &mut Random) {
    if let Some(array) = section_child(image, random, &WITH_OFFSETS, "ElementConnectivity") {
        let mut numbers = image.nodes[array].numbers();
        if random.one_in(2) || numbers.len() < 2 {
            numbers.push(1);
        } else {
            numbers.pop();
        }
        image.nodes[array].set_list(&numbers);
    }
}

/// An element of one to three references, the others given to a neighbour or left out (rule 33 in three dimensions).
pub fn flat_element(image: &mut Image, random: &mut Random) {
    let Some(offsets) = section_child(image, random, &[22, 23], "ElementStartOffset") else {
        return;
    };
    let section = image.nodes[offsets].parent as usize;
    let Some(array) = image.child(section, "ElementConnectivity") else {
        return;
    };
    let (mut starts, mut references) = (image.nodes[offsets].numbers(), image.nodes[array].numbers());
    let last = starts.len().saturating_sub(2);
    let element = if random.one_in(3) { last } else { random.index(last + 1) };
    let (Some(&start), Some(&end)) = (starts.get(element), starts.get(element + 1)) else {
        return;
    };
    if start < 0 || end <= start || references.len() < end as usize {
        return;
    }
    let kept = (start + random.between(1, 3)).min(end);
    match random.below(3) {
        0 if element < last => starts[element + 1] = kept,
        1 if element > 0 => starts[element] = end - (kept - start),
        _ => {
            references.drain(kept as usize..end as usize);
            starts[element + 1..].iter_mut().for_each(|start| *start = start.saturating_sub(end - kept));
        }
    }
    image.nodes[offsets].set_list(&starts);
    image.nodes[array].set_list(&references);
}

/// Three dimensions of a base in place of fewer (rule 33, if a section has small elements).
pub fn third_dimension(image: &mut Image, random: &mut Random) {
    if let Some(base) = labelled(image, random, "CGNSBase_t") {
        image.nodes[base].set_numbers(&[3, 3]);
    }
}

/// A node reference out of range (rule 34).
pub fn other_node_reference(image: &mut Image, random: &mut Random) {
    let mut types = FIXED_TYPES.to_vec();
    types.extend([MIXED, NGON_N]);
    let Some(array) = section_child(image, random, &types, "ElementConnectivity") else {
        return;
    };
    let section = image.nodes[array].parent as usize;
    let zone = image.nodes[section].parent as usize;
    let Some(&vertices) = image.nodes[zone].numbers().first() else {
        return;
    };
    let (above, below) = (vertices.saturating_add(1), vertices.saturating_neg());
    let choices = [0, -1, above, below, i64::from(i32::MIN), MAX_NUMBER, i64::MIN, i64::MAX];
    let types = type_places(image, section);
    let places: Vec<usize> = (0..image.nodes[array].numbers().len()).filter(|place| !types.contains(place)).collect();
    if !places.is_empty() {
        change(image, array, *random.pick(&places), *random.pick(&choices));
    }
}

/// Changes a face reference: `other` is given the ranges of the zone's sections, at least one.
fn change_face(image: &mut Image, random: &mut Random, other: impl Fn(&mut Random, &[(i64, i64)]) -> i64) {
    let Some(array) = section_child(image, random, &[23], "ElementConnectivity") else {
        return;
    };
    let section = image.nodes[array].parent as usize;
    let zone = image.nodes[section].parent as usize;
    let ranges: Vec<(i64, i64)> = image
        .children(zone)
        .into_iter()
        .filter_map(|n| image.child(n, "ElementRange"))
        .filter_map(|n| range_of(image, n))
        .collect();
    if ranges.is_empty() {
        return;
    }
    let place = random.index(image.nodes[array].numbers().len());
    let number = other(random, &ranges);
    change(image, array, place, number);
}

/// A face reference that is zero (rule 35).
pub fn zero_face_reference(image: &mut Image, random: &mut Random) {
    change_face(image, random, |_, _| 0);
}

/// A face reference that may be no element of the zone (rule 36).
pub fn no_element_reference(image: &mut Image, random: &mut Random) {
    change_face(image, random, |random, ranges| {
        let (first, last) = *random.pick(ranges);
        let sign = *random.pick(&[1, -1]);
        let choices = [
            first.saturating_sub(1).saturating_mul(sign),
            last.saturating_add(1).saturating_mul(sign),
            i64::from(i32::MIN),
            sign * MAX_NUMBER,
            i64::MIN,
            i64::MAX,
        ];
        *random.pick(&choices)
    });
}

/// A reference to any element of the zone (rule 37, if it is no face).
pub fn element_reference(image: &mut Image, random: &mut Random) {
    change_face(image, random, |random, ranges| {
        let (first, last) = *random.pick(ranges);
        random.pick(&[first, last]).saturating_mul(*random.pick(&[1, -1]))
    });
}

/// A face section of another type (rule 37 at cells with a lower number).
pub fn face_section_retyped(image: &mut Image, random: &mut Random) {
    if let Some(range) = section_child(image, random, &[NGON_N], "ElementRange") {
        let section = image.nodes[range].parent as usize;
        change(image, section, 0, *random.pick(&[7, MIXED, NFACE_N, 0, 24, -22]));
    }
}

/// A face section that does not count, or has fewer faces (rule 36 at cells with a lower number); what else it breaks may
/// come later than the cells.
pub fn face_section_lost(image: &mut Image, random: &mut Random) {
    let Some(range) = section_child(image, random, &[22], "ElementRange") else {
        return;
    };
    let section = image.nodes[range].parent as usize;
    let (first, last) = range_of(image, range).unwrap_or((1, 1));
    match random.below(5) {
        0 => image.remove(section),
        1 => change(image, section, 1, -1),
        2 => change(image, range, 1, last.saturating_sub(1).max(first)),
        3 => change(image, range, 0, 0),
        _ => break_type(random, &mut image.nodes[section]),
    }
}
