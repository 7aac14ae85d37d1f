//! Face usage (document 01: the face ledger): how the cells of a zone use its faces.

use crate::elements::{SectionData, NFACE_N};
use crate::face_ranges::Faces;
use crate::labels::Label;
use crate::rejection::Rejection;
use crate::tree::Tree;
use crate::validation::{validated_tree, zone_asked_for};

/// The bit of a face used forward (by a positive reference).
pub const FORWARD: u8 = 1;
/// The bit of a face used reversed (by a negative reference).
pub const REVERSED: u8 = 2;

/// Writes the usage of each of a zone's F faces to the front of `out` and answers F: 0 unused, 1 forward only, 2
/// reversed only, 3 both. Or the verdict's refusal, 40, 44 when `out` is shorter than F, with `out` as it was; or 45
/// with section node and element at the first face used twice with one sign, the first F bytes being 0 then. Bytes past
/// F never change.
pub fn face_usage(image: &[u8], zone: u64, out: &mut [u8]) -> Result<usize, Rejection> {
    let tree = validated_tree(image)?;
    let zone = zone_asked_for(&tree, zone)?;
    write_usage(&tree, zone, out)
}

/// The same of a zone of an accepted image.
pub fn write_usage(tree: &Tree, zone: usize, out: &mut [u8]) -> Result<usize, Rejection> {
    let faces = Faces::of_zone(tree, zone);
    let count = usize::try_from(faces.count()).map_err(|_| Rejection::of_call(44))?;
    let usage = out.get_mut(..count).ok_or(Rejection::of_call(44))?;
    usage.fill(0);
    for node in tree.children_labelled(zone, Label::Elements) {
        if let Err(rejection) = add_section(tree, node, &faces, usage) {
            usage.fill(0);
            return Err(rejection);
        }
    }
    Ok(count)
}

/// How many faces a zone has, as rule 37 has them; or the verdict's refusal, or 40.
pub fn face_count(image: &[u8], zone: u64) -> Result<u64, Rejection> {
    let tree = validated_tree(image)?;
    let zone = zone_asked_for(&tree, zone)?;
    Ok(Faces::of_zone(&tree, zone).count())
}

/// Adds the references of a section to the usage, if it is of type 23; 45 at the first repeat.
fn add_section(tree: &Tree, node: usize, faces: &Faces, usage: &mut [u8]) -> Result<(), Rejection> {
    let Some(section) = SectionData::read(tree, node).filter(|s| s.element_type == NFACE_N) else {
        return Ok(());
    };
    let mut entry = 0;
    let fresh = section.connectivity.all(|reference| {
        let new = use_face(faces, usage, reference);
        entry += i64::from(new);
        new
    });
    if fresh {
        Ok(())
    } else {
        Err(Rejection::at_element(45, node as u64, element_holding(&section, entry)))
    }
}

/// Marks the face of a reference as used with its sign; answers whether that use is its first.
fn use_face(faces: &Faces, usage: &mut [u8], reference: i64) -> bool {
    let Some(index) = faces.index(reference) else {
        return true;
    };
    let sign = if reference > 0 { FORWARD } else { REVERSED };
    let face = &mut usage[index as usize];
    let new = *face & sign == 0;
    *face |= sign;
    new
}

/// The number of the element whose start offsets hold a connectivity index, counted from 0.
fn element_holding(section: &SectionData, entry: i64) -> u64 {
    let mut started = 0;
    section.offsets.all(|offset| {
        let begins = offset <= entry;
        started += u64::from(begins);
        begins
    });
    section.range.0 as u64 + started.saturating_sub(1)
}
