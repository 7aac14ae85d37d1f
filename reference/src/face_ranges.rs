//! The elements of a zone as rules 36, 37 and 39 have them, and those of them that are faces or cells: ranges of element
//! numbers, and the index of a face among them.

use crate::elements::{element_range, element_type_of, NFACE_N, NGON_N};
use crate::labels::Label;
use crate::tree::Tree;

/// The sections of a zone whose own node meets rules 24 and 25 and whose ElementRange conforms, in node order: the type
/// and the range of each. Nothing else is asked of them, not even whether the type is taken.
fn sections<'a>(tree: &'a Tree, zone: usize) -> impl Iterator<Item = (i64, (u64, u64))> + 'a {
    tree.children_labelled(zone, Label::Elements).filter_map(|section| {
        let element_type = element_type_of(tree, section)?;
        let (first, last) = element_range(tree, section)?;
        Some((element_type, (first as u64, last as u64)))
    })
}

/// Whether a number is that of an element of a zone, of whatever type: it lies in the range of one of these sections.
pub fn is_element(tree: &Tree, zone: usize, number: u64) -> bool {
    sections(tree, zone).any(|(_, (first, last))| first <= number && number <= last)
}

/// The elements of one face section.
#[derive(Clone, Copy, Debug, PartialEq, Eq)]
struct FaceRange {
    first: u64,
    last: u64,
    /// How many faces the sections before it in node order have.
    before: u64,
}

/// The faces of a zone: the element numbers in the ranges of its validated sections whose own node meets rules 24 and
/// 25, has type 22, and whose ElementRange conforms.
#[derive(Clone, Debug)]
pub struct Faces {
    /// Ascending by first number; ranges may meet in an image that is not accepted.
    ranges: Vec<FaceRange>,
    /// For each range the greatest last number up to it.
    reach: Vec<u64>,
    count: u64,
}

impl Faces {
    /// The faces of a validated zone.
    pub fn of_zone(tree: &Tree, zone: usize) -> Faces {
        let mut ranges = Vec::new();
        let mut count = 0;
        for (_, (first, last)) in sections(tree, zone).filter(|(element_type, _)| *element_type == NGON_N) {
            ranges.push(FaceRange { first, last, before: count });
            count += last - first + 1;
        }
        ranges.sort_by_key(|range| range.first);
        let mut furthest = 0;
        let reach = ranges
            .iter()
            .map(|range| {
                furthest = range.last.max(furthest);
                furthest
            })
            .collect();
        Faces { ranges, reach, count }
    }

    /// F, the number of faces, for an accepted image: its ranges do not meet.
    pub fn count(&self) -> u64 {
        self.count
    }

    /// The index of the face that a reference of either sign names, by section node and then number; nothing where
    /// there is no such face. Where ranges meet, as they cannot in an accepted image, the index only says that there is
    /// one.
    pub fn index(&self, reference: i64) -> Option<u64> {
        let magnitude = reference.unsigned_abs();
        let not_after = self.ranges.partition_point(|r| r.first <= magnitude);
        let place = not_after.checked_sub(1)?;
        let range = self.ranges[place];
        (magnitude <= self.reach[place]).then(|| range.before + (magnitude - range.first))
    }
}

/// The cells of a zone: the element numbers in the ranges of those of these sections that have type 23.
#[derive(Clone, Debug)]
pub struct Cells {
    /// Ascending; where ranges meet, as they cannot in an accepted image, they are one.
    ranges: Vec<(u64, u64)>,
}

impl Cells {
    /// The cells of a validated zone.
    pub fn of_zone(tree: &Tree, zone: usize) -> Cells {
        let of_cells = sections(tree, zone).filter(|(element_type, _)| *element_type == NFACE_N);
        let mut all: Vec<(u64, u64)> = of_cells.map(|(_, range)| range).collect();
        all.sort_unstable();
        let mut ranges: Vec<(u64, u64)> = Vec::new();
        for (first, last) in all {
            match ranges.last_mut() {
                Some(before) if first <= before.1 => before.1 = last.max(before.1),
                _ => ranges.push((first, last)),
            }
        }
        Cells { ranges }
    }

    /// Whether a number is that of a cell.
    pub fn has(&self, number: i64) -> bool {
        let Ok(number) = u64::try_from(number) else {
            return false;
        };
        let not_after = self.ranges.partition_point(|&(first, _)| first <= number);
        not_after.checked_sub(1).is_some_and(|place| number <= self.ranges[place].1)
    }
}
