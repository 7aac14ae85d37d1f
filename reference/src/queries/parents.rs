//! Queries of the parents of faces (document 02, §7), and of whether they agree with the cells.

use super::Asker;
use crate::answers::{agree_into_line, agree_line, parents_line};
use crate::elements::NGON_N;
use crate::reader::Section;

impl Asker<'_> {
    /// What is asked of a node that is no zone, or of any node of an image that is refused: the parents of a face, and
    /// whether parents agree.
    pub(super) fn parents_of_no_zone(&mut self, node: u64) {
        let (face, room) = (self.random.below(9), self.random.index(6));
        self.parents(node, face);
        self.agree(node);
        self.agree_into(node, room);
    }

    /// The parents of faces of a zone's sections and of numbers that are no faces; whether they agree, with memory of too
    /// little, of fitting and of more length for so many faces.
    pub(super) fn parents_of_zone(&mut self, zone: u64, entries: &[Section], faces: usize) {
        let mut asked = vec![0, 1, u64::MAX, 1 << 63];
        for entry in entries {
            asked.extend([entry.first - 1, entry.first, entry.last, entry.last + 1]);
            if entry.element_type == NGON_N as u64 {
                asked.extend((0..4).map(|_| self.inside(entry)));
                asked.extend([entry.first + (1 << 32), entry.first.wrapping_neg()]);
            }
        }
        asked.sort_unstable();
        asked.dedup();
        for face in asked {
            self.parents(zone, face);
        }
        self.agree(zone);
        if faces <= 4_096 {
            for room in [faces.saturating_sub(1), faces, faces + 1 + self.random.index(3), 0] {
                self.agree_into(zone, room);
            }
        }
    }

    /// One query of the parents of a face.
    fn parents(&mut self, zone: u64, face: u64) {
        let answer = parents_line(self.image, zone, face);
        self.note(format!("parents {zone} {face}"), answer);
    }

    /// One query of whether parents agree, with memory enough.
    fn agree(&mut self, zone: u64) {
        let answer = agree_line(self.image, zone);
        self.note(format!("agree {zone}"), answer);
    }

    /// The same with lent memory of so many bytes.
    fn agree_into(&mut self, zone: u64, room: usize) {
        let answer = agree_into_line(self.image, zone, room);
        self.note(format!("agree-into {zone} {room}"), answer);
    }
}
