//! The reference's answers as the exports give them: the rule, and the words of the answer.

use reference::{array_value, data_size, element_corners, face_usage, path_into, section_entries, validate};
use reference::{Rejection, Value, ENTRY_LENGTH};

/// The rule, 0 where there is none, and the words of the answer.
pub type Told<const N: usize> = (u64, [u64; N]);

/// A refusal: its rule, and as words its node, its entry, and 0 for all others.
fn refusal<const N: usize>(rejection: Rejection) -> Told<N> {
    let mut words = [0; N];
    words[0] = rejection.node;
    words[1] = rejection.entry;
    (u64::from(rejection.rule), words)
}

/// node, entry, validated, skipped, zones, sections
pub fn validation(image: &[u8]) -> Told<6> {
    match validate(image) {
        Ok(counts) => (0, [0, 0, counts.validated, counts.skipped, counts.zones, counts.sections]),
        Err(rejection) => refusal(rejection),
    }
}

/// node, entry, count; eleven numbers a section go to the front of `out`
pub fn sections(image: &[u8], zone: u64, out: &mut [u64]) -> Told<3> {
    let entries = match section_entries(image, zone) {
        Ok(entries) => entries,
        Err(rejection) => return refusal(rejection),
    };
    let numbers: Vec<u64> = entries.iter().flat_map(|entry| entry.numbers()).collect();
    match out.get_mut(..numbers.len()) {
        Some(front) => front.copy_from_slice(&numbers),
        None => return (46, [0; 3]),
    }
    (0, [0, 0, entries.len() as u64])
}

/// node, entry, element, count; the usage of each face goes to the front of `out`
pub fn usage(image: &[u8], zone: u64, out: &mut [u8]) -> Told<4> {
    match face_usage(image, zone, out) {
        Ok(count) => (0, [0, 0, 0, count as u64]),
        Err(rejection) => refusal_of_usage(rejection),
    }
}

/// The same refusal with its element as a word behind the entry.
fn refusal_of_usage(rejection: Rejection) -> Told<4> {
    (u64::from(rejection.rule), [rejection.node, rejection.entry, rejection.element, 0])
}

/// node, entry, first, second
pub fn parents(image: &[u8], zone: u64, face: u64) -> Told<4> {
    match reference::parents(image, zone, face) {
        Ok([first, second]) => (0, [0, 0, first, second]),
        Err(rejection) => refusal(rejection),
    }
}

/// node, entry, element, agrees; the usage of each face goes to the front of `out`
pub fn agreement(image: &[u8], zone: u64, out: &mut [u8]) -> Told<4> {
    match reference::parents_agree(image, zone, out) {
        Ok(agrees) => (0, [0, 0, 0, u64::from(agrees)]),
        Err(rejection) => refusal_of_usage(rejection),
    }
}

/// node, entry, count; the path goes to the front of `out`
pub fn path(image: &[u8], node: u64, out: &mut [u8]) -> Told<3> {
    match path_into(image, node, out) {
        Ok(length) => (0, [0, 0, length as u64]),
        Err(rejection) => refusal(rejection),
    }
}

/// node, entry, count
pub fn name_bytes(image: &[u8]) -> Told<3> {
    match reference::name_bytes(image) {
        Ok(count) => (0, [0, 0, count]),
        Err(rejection) => refusal(rejection),
    }
}

/// node, entry, directions, i, j, k
pub fn sizes(image: &[u8], node: u64) -> Told<6> {
    match data_size(image, node) {
        Ok(size) => {
            let mut words = [0, 0, size.directions as u64, 0, 0, 0];
            words[3..3 + size.directions].copy_from_slice(size.dimensions());
            (0, words)
        }
        Err(rejection) => refusal(rejection),
    }
}

/// node, entry, kind, bits
pub fn value(image: &[u8], node: u64, k: u64) -> Told<4> {
    match array_value(image, node, k) {
        Ok(Value::Whole(number)) => (0, [0, 0, 1, number as u64]),
        Ok(Value::Single(bits)) => (0, [0, 0, 2, u64::from(bits)]),
        Ok(Value::Double(bits)) => (0, [0, 0, 3, bits]),
        Err(rejection) => refusal(rejection),
    }
}

/// The number, or the rule.
pub fn corner(image: &[u8], section: &[u64; ENTRY_LENGTH], element: u64, corner: u64) -> Result<i64, u64> {
    reference::corner(image, section, element, corner).map_err(|rejection| u64::from(rejection.rule))
}

/// count; the corners go to the front of `out`
pub fn element(image: &[u8], section: &[u64; ENTRY_LENGTH], element: u64, out: &mut [i64]) -> Told<1> {
    match element_corners(image, section, element, out) {
        Ok(count) => (0, [count as u64]),
        Err(rejection) => (u64::from(rejection.rule), [0]),
    }
}

/// type
pub fn element_type(image: &[u8], section: &[u64; ENTRY_LENGTH], element: u64) -> Told<1> {
    match reference::element_type(image, section, element) {
        Ok(element_type) => (0, [element_type]),
        Err(rejection) => (u64::from(rejection.rule), [0]),
    }
}
