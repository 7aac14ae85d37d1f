//! Damage to the types that MIXED sections store (rule 38).

use super::pick::{change, section_child};
use crate::build::Image;
use crate::elements::{MIXED, NGON_N};
use crate::lawful::types_of_other_size;
use crate::random::Random;
use crate::sizes::MAX_NUMBER;

/// Where the types of a MIXED section stand in its connectivity; nowhere in another section.
pub fn type_places(image: &Image, section: usize) -> Vec<usize> {
    let Some(offsets) = image.child(section, "ElementStartOffset") else {
        return Vec::new();
    };
    if image.nodes[section].numbers().first() != Some(&MIXED) {
        return Vec::new();
    }
    let starts = image.nodes[offsets].numbers();
    starts.iter().rev().skip(1).rev().filter_map(|&start| usize::try_from(start).ok()).collect()
}

/// A number of 4 or 8 bytes that is no fixed type, often one that has something of this type.
pub fn unlisted_type(random: &mut Random, width: usize, near: i64) -> i64 {
    let (least, beyond) = (i64::from(i32::MIN), 1 << 32);
    let narrow =
        [0, 1, MIXED, MIXED, 22, 22, 23, 24, 56, -1, -near, -near, near + 256, MAX_NUMBER, least, least + near];
    let wide =
        [near + beyond, near + beyond, near - beyond, MAX_NUMBER + 1, i64::MIN, i64::MIN + near, i64::MAX, -near];
    if width == 8 && random.one_in(2) {
        *random.pick(&wide)
    } else {
        *random.pick(&narrow)
    }
}

/// Changes the type of any element of a MIXED section: `other` is given the width and the type that stands there.
fn change_type(image: &mut Image, random: &mut Random, other: impl Fn(&mut Random, usize, i64) -> i64) {
    let Some(array) = section_child(image, random, &[MIXED], "ElementConnectivity") else {
        return;
    };
    let places = type_places(image, image.nodes[array].parent as usize);
    if places.is_empty() {
        return;
    }
    let place = if random.one_in(3) { places[places.len() - 1] } else { *random.pick(&places) };
    if let Some(&stored) = image.nodes[array].numbers().get(place) {
        let number = other(random, image.nodes[array].width(), stored);
        change(image, array, place, number);
    }
}

/// A stored type that is not in the list.
pub fn unlisted(image: &mut Image, random: &mut Random) {
    change_type(image, random, unlisted_type);
}

/// A stored type that has more or fewer nodes than the element.
pub fn of_other_size(image: &mut Image, random: &mut Random) {
    change_type(image, random, |random, _, stored| *random.pick(&types_of_other_size(stored)));
}

/// A start offset between two elements of a MIXED section one higher or lower.
pub fn other_start(image: &mut Image, random: &mut Random) {
    if let Some(offsets) = section_child(image, random, &[MIXED], "ElementStartOffset") {
        shift_start(image, random, offsets);
    }
}

/// Lets an element begin one entry earlier or later, its neighbour ending there; says whether there are two elements.
pub fn shift_start(image: &mut Image, random: &mut Random, offsets: usize) -> bool {
    let starts = image.nodes[offsets].numbers();
    if starts.len() < 3 {
        return false;
    }
    let place = 1 + random.index(starts.len() - 2);
    change(image, offsets, place, starts[place].saturating_add(*random.pick(&[1, -1])));
    true
}

/// Faces said to be MIXED: their first nodes are taken for types.
pub fn called_mixed(image: &mut Image, random: &mut Random) {
    if let Some(range) = section_child(image, random, &[NGON_N], "ElementRange") {
        let section = image.nodes[range].parent as usize;
        change(image, section, 0, MIXED);
    }
}
