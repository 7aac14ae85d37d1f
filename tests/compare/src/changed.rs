//! Accepted images in which one number is changed afterwards: of a MIXED section a stored type or a start offset, and what the
//! readers then answer by the section of before; of any section a reference, and where validation then finds it; of faces a
//! parent, and whether the parents are then lawful and agree.

use reference::build::signed_bytes;
use reference::bytes::signed_at;
use reference::elements::{nodes_of, MIXED, NFACE_N};
use reference::random::Random;
use reference::Section;

/// An image with a number changed.
pub struct Changed {
    pub image: Vec<u8>,
    /// The section that it belongs to, and the element.
    pub section: Section,
    pub element: u64,
}

/// Changes a number of one of the image's MIXED sections; nothing where it has none.
pub fn changed(image: &[u8], entries: &[Section], random: &mut Random) -> Option<Changed> {
    let mixed: Vec<&Section> = entries.iter().filter(|entry| entry.element_type == MIXED as u64).collect();
    let section = **mixed.get(random.index(mixed.len().max(1)))?;
    let index = random.below(section.last - section.first + 1);
    let (offsets_width, width) = (section.offsets_width as usize, section.connectivity_width as usize);
    let offset_at = section.offsets_at as usize + offsets_width * index as usize;
    let start = signed_at(image, offset_at, offsets_width);
    let type_at = section.connectivity_at as usize + width * start as usize;
    let mut image = image.to_vec();
    if random.one_in(3) {
        let offset = start + *random.pick(&[-1, 1, 2, i64::from(i32::MIN)]);
        put(&mut image, offset_at, offsets_width, offset);
    } else {
        let stored = other_type(random, signed_at(&image, type_at, width));
        put(&mut image, type_at, width, stored);
    }
    Some(Changed { image, section, element: section.first + index })
}

/// An image with an entry of the connectivity of one of its sections changed, the first, the last or any, mostly to what is no
/// node and no face; nothing where it has no section.
pub fn changed_reference(image: &[u8], entries: &[Section], random: &mut Random) -> Option<Vec<u8>> {
    let section = entries.get(random.index(entries.len().max(1)))?;
    let width = section.connectivity_width as usize;
    let last = section.connectivity_length - 1;
    let any = random.below(section.connectivity_length);
    let at = section.connectivity_at as usize + width * *random.pick(&[0, last, any]) as usize;
    let (first, behind) = (section.first as i64, section.last as i64 + 1);
    let numbers = [0, 0, first, -first, behind, -behind, i64::from(i32::MIN), i64::MIN, i64::MAX, (1 << 32) + first];
    let mut image = image.to_vec();
    put(&mut image, at, width, *random.pick(&numbers));
    Some(image)
}

/// An image with a parent of one of its faces changed, of either column, to 0, a cell, another element or what is none; and the
/// section. Nothing where no section has parents.
pub fn changed_parent(image: &[u8], entries: &[Section], random: &mut Random) -> Option<(Vec<u8>, Section)> {
    let faces: Vec<&Section> = entries.iter().filter(|entry| entry.parents_width > 0).collect();
    let section = **faces.get(random.index(faces.len().max(1)))?;
    let width = section.parents_width as usize;
    let place = random.below(2 * (section.last - section.first + 1)) as usize;
    let cells: Vec<&Section> = entries.iter().filter(|entry| entry.element_type == NFACE_N as u64).collect();
    let cell = cells.get(random.index(cells.len().max(1))).map_or(1, |cells| {
        let any = cells.first + random.below(cells.last - cells.first + 1);
        *random.pick(&[cells.first, cells.last, any])
    }) as i64;
    let other = *random.pick(&[
        section.first as i64,
        -cell,
        cell + (1 << 32),
        section.last as i64 + 1,
        i64::from(i32::MIN),
        i64::MIN,
        i64::MAX,
    ]);
    let number = *random.pick(&[0, cell, cell, other]);
    let mut image = image.to_vec();
    put(&mut image, section.parents_at as usize + width * place, width, number);
    Some((image, section))
}

/// Another number in place of a stored type: mostly near what is supported, now and then of as many nodes, or the same in its
/// lower bits.
fn other_type(random: &mut Random, stored: i64) -> i64 {
    let alike: Vec<i64> = (2..=21).filter(|&other| other != stored && nodes_of(other) == nodes_of(stored)).collect();
    match random.below(6) {
        0 if !alike.is_empty() => *random.pick(&alike),
        1 => -stored,
        2 => stored + *random.pick(&[1 << 8, 1 << 16, 1 << 32, 1 << 32, i64::MIN]),
        3 => *random.pick(&[0, 1, MIXED, 22, 23, 24]),
        _ => random.between(-1, 25),
    }
}

/// Writes a number of 4 or 8 bytes; of a greater one its lower bytes.
fn put(image: &mut [u8], at: usize, width: usize, number: i64) {
    image[at..at + width].copy_from_slice(&signed_bytes(width, &[number]));
}
