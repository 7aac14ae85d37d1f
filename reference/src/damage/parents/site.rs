//! Faces with their parents, and cells, of a zone that a case adds.

use super::Answer;
use crate::build::Node;
use crate::damage::flat::{LEAST_CELL, LEAST_FACE};
use crate::damage::parent_arrays::put_parent;
use crate::damage::site::Site;
use crate::elements::{NFACE_N, NGON_N};
use crate::lawful::CellUses;

impl Site<'_> {
    /// Adds sections of faces and sections of cells, of these names, with one or two cells each. Every face is used once
    /// or, from its two sides, twice.
    pub fn add_used_mesh(&mut self, of_faces: &[&str], of_cells: &[&str]) {
        let counts: Vec<usize> = of_cells.iter().map(|_| 1 + self.random.index(2)).collect();
        let cells: usize = counts.iter().sum();
        let sizes: Vec<i64> = (0..cells).map(|_| LEAST_CELL + *self.random.pick(&[0, 0, 0, 1])).collect();
        let uses = sizes.iter().sum::<i64>() as usize;
        let twice = self.random.index(uses / 2 + 1);
        let faces = self.add_face_sections(of_faces, uses - twice);
        let mut references: Vec<i64> = faces.iter().map(|&face| self.signed(face)).collect();
        self.random.shuffle(&mut references);
        references.extend_from_within(..twice);
        references[uses - twice..].iter_mut().for_each(|reference| *reference = -*reference);
        self.random.shuffle(&mut references);
        let (mut references, mut sizes) = (references.into_iter(), sizes.into_iter());
        for (name, count) in of_cells.iter().zip(counts) {
            let mut cell = |size| references.by_ref().take(size as usize).collect::<Vec<i64>>();
            let cells: Vec<Vec<i64>> = sizes.by_ref().take(count).map(&mut cell).collect();
            self.add(name, NFACE_N, &cells);
        }
    }

    /// Adds sections of faces of these names, so many faces together and one in each at least; answers their numbers.
    fn add_face_sections(&mut self, names: &[&str], faces: usize) -> Vec<i64> {
        let (mut numbers, mut left) = (Vec::new(), faces);
        for (k, name) in names.iter().enumerate() {
            let behind = names.len() - 1 - k;
            let count = if behind == 0 { left } else { 1 + self.random.index(left - behind) };
            left -= count;
            let first = self.next_element;
            let list = self.faces(&vec![LEAST_FACE; count]);
            self.add(name, NGON_N, &list);
            numbers.extend(first..self.next_element);
        }
        numbers
    }

    /// Adds faces and cells, each in one section.
    pub fn add_plain_mesh(&mut self) {
        self.add_used_mesh(&["Faces"], &["Cells"]);
    }

    /// The numbers of the faces of a section.
    pub fn faces_of(&self, name: &str) -> Option<Vec<i64>> {
        let [first, last] = self.range(name)?;
        Some((first..=last).collect())
    }

    /// Gives a face section parents that agree with the cells; any cells for faces of no cell.
    pub fn add_agreeing(&mut self, name: &str) -> Option<()> {
        let uses = self.cell_uses();
        self.add_pairs(name, |site, face| uses.agreeing(site.random, face))
    }

    /// Gives a face section the parents that are answered for each of its faces.
    pub fn add_pairs(&mut self, name: &str, mut pair: impl FnMut(&mut Self, i64) -> [i64; 2]) -> Option<()> {
        let pairs: Vec<[i64; 2]> = self.faces_of(name)?.into_iter().map(|face| pair(self, face)).collect();
        let width = self.width();
        self.add_to(name, Node::parent_elements(width, &pairs))
    }

    /// A plain mesh whose faces have parents that agree.
    pub fn add_agreeing_mesh(&mut self) -> Option<()> {
        self.add_plain_mesh();
        self.add_agreeing("Faces")
    }

    /// A plain mesh whose faces have parents that agree, but for those of one face: `change` answers them from the cells
    /// that use it, and nothing where the face does not do.
    pub fn add_disagreeing_mesh(
        &mut self,
        change: impl Fn(&mut Self, &CellUses, &[i64]) -> Option<[i64; 2]>,
    ) -> Option<()> {
        self.add_plain_mesh();
        let uses = self.cell_uses();
        let mut faces = self.faces_of("Faces")?;
        self.random.shuffle(&mut faces);
        let (face, pair) = faces.into_iter().find_map(|face| Some((face, change(self, &uses, uses.of_face(face))?)))?;
        self.add_pairs("Faces", |site, other| if other == face { pair } else { uses.agreeing(site.random, other) })
    }

    /// Puts a number into the parents of a section, at any place of a column, 0 or 1; often the first or the last.
    pub fn put_parent(&mut self, name: &str, column: usize, number: i64) -> Option<()> {
        let array = self.child_of(name, "ParentElements")?;
        let count = self.image.nodes[array].numbers().len() / 2;
        let any = self.random.index(count);
        let place = *self.random.pick(&[0, count - 1, any]);
        put_parent(&mut self.image.nodes[array], column * count + place, number);
        Some(())
    }

    /// The same in either column, with a number that is no parent: the section is refused by rule 39.
    pub fn spoil_parents(&mut self, name: &str, number: i64) -> Option<Answer> {
        let column = self.random.index(2);
        self.put_parent(name, column, number)?;
        self.refused(39, name)
    }
}
