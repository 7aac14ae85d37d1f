//! Queries of the types of elements (document 02, §4), and of the corners of elements with a stored type.

use super::Asker;
use crate::answers::{element_type_line, numbers};
use crate::elements::MIXED;
use crate::reader::{Section, ENTRY_LENGTH};

impl Asker<'_> {
    /// Types of elements of a section: at the ends, inside, out of range, and by an entry with one number changed.
    pub(super) fn types(&mut self, entry: &Section) {
        let numbers = entry.numbers();
        let mut asked = vec![entry.first, entry.last, 0, entry.first - 1, entry.last + 1, u64::MAX];
        asked.extend((0..4).map(|_| self.inside(entry)));
        asked.sort_unstable();
        asked.dedup();
        for element in asked {
            self.element_type(&numbers, element);
        }
        for _ in 0..6 {
            let other = self.other_entry(entry);
            let (inside, element) = (self.inside(entry), self.odd_number(entry.first));
            self.element_type(&other, inside);
            self.element_type(&other, element);
        }
    }

    /// Some elements of a MIXED section; elements of any section by entries that say something else about stored types.
    pub(super) fn stored_types(&mut self, entry: &Section) {
        if entry.element_type == MIXED as u64 {
            for _ in 0..3 {
                let element = self.inside(entry);
                self.all_of_element(&entry.numbers(), element);
            }
        }
        for other in other_entries(entry) {
            let element = self.inside(entry);
            self.all_of_element(&other.numbers(), element);
        }
    }

    /// The type of an element, some of its corners, the first corner that it has not, and all corners together.
    fn all_of_element(&mut self, entry: &[u64; ENTRY_LENGTH], element: u64) {
        self.element_type(entry, element);
        let size = self.size(entry, element);
        let last = if size < 64 { size + 1 } else { 1 };
        let step = 1 + last / 5;
        for corner in (1..last).step_by(step as usize).chain([last]) {
            self.corner(entry, element, corner);
        }
        let room = last as usize - self.random.index(2);
        self.element(entry, element, room);
    }

    /// Types of elements by entries that no image gave.
    pub(super) fn absurd_types(&mut self) {
        for _ in 0..12 {
            let entry = self.absurd_entry();
            let element = entry[2].wrapping_add(self.random.below(3));
            self.element_type(&entry, element);
        }
    }

    /// One query of the type of an element.
    fn element_type(&mut self, entry: &[u64; ENTRY_LENGTH], element: u64) {
        let query = format!("element-type{} {element}", numbers(entry));
        let answer = element_type_line(self.image, entry, element);
        self.note(query, answer);
    }
}

/// Entries that differ from one of a section in what is said about stored types: another type, arrays that begin a number
/// earlier or later, numbers of the other width, a shorter connectivity. Sections that are not MIXED are said to be.
fn other_entries(entry: &Section) -> Vec<Section> {
    if entry.element_type != MIXED as u64 {
        return vec![Section { element_type: MIXED as u64, ..*entry }];
    }
    let (of_offsets, of_connectivity) = (entry.offsets_width, entry.connectivity_width);
    let types = [10, 17, 22, 23].map(|element_type| Section { element_type, ..*entry });
    let moved = [
        Section { connectivity_at: entry.connectivity_at + of_connectivity, ..*entry },
        Section { connectivity_at: entry.connectivity_at - of_connectivity, ..*entry },
        Section { connectivity_at: entry.connectivity_at + 4, connectivity_length: 1, ..*entry },
        Section { offsets_at: entry.offsets_at + of_offsets, ..*entry },
        Section { offsets_at: entry.offsets_at - of_offsets, ..*entry },
        Section { offsets_at: entry.connectivity_at, offsets_width: of_connectivity, ..*entry },
        Section { first: entry.first - 1, ..*entry },
    ];
    let (half, double) = (entry.connectivity_length / 2, entry.connectivity_length * 2);
    let widths = [
        Section { connectivity_width: 12 - of_connectivity, ..*entry },
        Section { connectivity_width: 4, connectivity_length: double, ..*entry },
        Section { connectivity_width: 8, connectivity_length: half, ..*entry },
        Section { offsets_width: 12 - of_offsets, ..*entry },
        Section { connectivity_length: entry.connectivity_length - 1, ..*entry },
    ];
    types.into_iter().chain(moved).chain(widths).collect()
}
