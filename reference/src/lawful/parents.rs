//! Parents of faces: those that agree with the cells of a zone, and others that are lawful too.

use std::collections::BTreeMap;

use super::Maker;
use crate::build::{Image, Node};
use crate::elements::{NFACE_N, NGON_N};
use crate::random::Random;

/// The cells of a zone that is being made, and which of them use which face.
#[derive(Clone, Debug, Default)]
pub struct CellUses {
    /// The first and the last cell of each section.
    ranges: Vec<[i64; 2]>,
    /// The cells that use a face, each as often as it does.
    of_faces: BTreeMap<i64, Vec<i64>>,
}

/// The sections of a zone that have a type, in node order.
fn sections_of(image: &Image, zone: usize, element_type: i64) -> Vec<usize> {
    let of_type = |&n: &usize| {
        image.nodes[n].is_labelled("Elements_t") && image.nodes[n].numbers().first() == Some(&element_type)
    };
    image.children(zone).into_iter().filter(of_type).collect()
}

/// The numbers of a child of a section.
fn numbers_of(image: &Image, section: usize, name: &str) -> Option<Vec<i64>> {
    image.child(section, name).map(|child| image.nodes[child].numbers())
}

impl CellUses {
    /// The cells of a zone.
    pub fn of_zone(image: &Image, zone: usize) -> CellUses {
        let mut uses = CellUses::default();
        for section in sections_of(image, zone, NFACE_N) {
            uses.add_section(image, section);
        }
        uses
    }

    /// Adds the cells of a section; nothing of one that does not hang together.
    fn add_section(&mut self, image: &Image, section: usize) -> Option<()> {
        let range: [i64; 2] = numbers_of(image, section, "ElementRange")?.try_into().ok()?;
        self.ranges.push(range);
        let starts = numbers_of(image, section, "ElementStartOffset")?;
        let faces = numbers_of(image, section, "ElementConnectivity")?;
        for (k, ends) in starts.windows(2).enumerate() {
            let cell = range[0].saturating_add(k as i64);
            let (start, end) = (usize::try_from(ends[0]).ok()?, usize::try_from(ends[1]).ok()?);
            for face in faces.get(start..end)? {
                self.of_faces.entry(face.saturating_abs()).or_default().push(cell);
            }
        }
        Some(())
    }

    /// Whether there are cells.
    pub fn has_cells(&self) -> bool {
        !self.ranges.is_empty()
    }

    /// The cells that use a face.
    pub fn of_face(&self, face: i64) -> &[i64] {
        self.of_faces.get(&face).map_or(&[], Vec::as_slice)
    }

    /// Any cell, often the first or the last of a section. There are cells.
    pub fn any_cell(&self, random: &mut Random) -> i64 {
        let [first, last] = *random.pick(&self.ranges);
        let any = random.between(first, last);
        *random.pick(&[first, last, any])
    }

    /// Any cell but this one; nothing where there is no other.
    pub fn other_cell(&self, random: &mut Random, cell: i64) -> Option<i64> {
        (0..20).map(|_| self.any_cell(random)).find(|&other| other != cell)
    }

    /// The parents of a face that agree with the cells, two of them in either order; any cell for a face that is unused
    /// or used more often.
    pub fn agreeing(&self, random: &mut Random, face: i64) -> [i64; 2] {
        match *self.of_face(face) {
            [cell] => [cell, 0],
            [one, other] => *random.pick(&[[one, other], [other, one]]),
            _ => [self.any_cell(random), 0],
        }
    }

    /// Lawful parents in place of agreeing ones: with another cell, without the second, or with the first twice.
    pub fn other_pair(&self, random: &mut Random, [first, second]: [i64; 2]) -> [i64; 2] {
        let other = self.any_cell(random);
        *random.pick(&[[other, second], [first, other], [first, 0], [first, first], [other, 0], [other, first]])
    }
}

impl Maker<'_> {
    /// Gives face sections of a zone with cells their parents, each now and then: those that agree with the cells, these
    /// with one or two pairs changed, or any cells.
    pub(super) fn parents(&mut self, zone: usize) {
        let uses = CellUses::of_zone(&self.image, zone);
        if !uses.has_cells() {
            return;
        }
        for section in sections_of(&self.image, zone, NGON_N) {
            if !self.chance(2, 1) {
                continue;
            }
            let range = numbers_of(&self.image, section, "ElementRange").unwrap_or_default();
            let random = &mut *self.random;
            let mut pairs: Vec<[i64; 2]> = (range[0]..=range[1]).map(|face| uses.agreeing(random, face)).collect();
            let changed = match random.below(4) {
                0 => pairs.len(),
                1 => 1 + random.index(2),
                _ => 0,
            };
            for _ in 0..changed {
                let place = random.index(pairs.len());
                pairs[place] = uses.other_pair(random, pairs[place]);
            }
            let width = self.width();
            self.add(section, Node::parent_elements(width, &pairs));
        }
    }
}
