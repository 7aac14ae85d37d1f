//! Sections of a zone that a case adds, and numbers in place of their references.

use super::Answer;
use crate::damage::flat::{LEAST_CELL, LEAST_FACE};
use crate::damage::site::Site;
use crate::damage::stored_types::type_places;
use crate::elements::nodes_of;

/// A number in place of a reference, and the rule that it breaks.
pub type Bad = (i64, u32);

impl Site<'_> {
    /// Adds one to three faces and as many cells of them.
    pub fn add_some_mesh(&mut self) {
        let (faces, cells) = (self.sizes(LEAST_FACE), self.sizes(LEAST_CELL));
        self.add_mesh(&faces, &cells);
    }

    /// Elements of a fixed type, one to three, with any nodes of the zone.
    pub fn some_fixed(&mut self) -> (i64, Vec<Vec<i64>>) {
        let fixed = *self.random.pick(&[2, 3, 5, 7, 10]);
        let count = 1 + self.random.index(3);
        (fixed, self.faces(&vec![nodes_of(fixed).unwrap_or(1) as i64; count]))
    }

    /// One or two faces for a further section.
    pub fn few_faces(&mut self) -> Vec<Vec<i64>> {
        let count = 1 + self.random.index(2);
        self.faces(&vec![LEAST_FACE; count])
    }

    /// The first and the last element of a section.
    pub fn range(&self, name: &str) -> Option<[i64; 2]> {
        self.image.nodes[self.child_of(name, "ElementRange")?].numbers().try_into().ok()
    }

    /// Lets a section of one element have another number.
    pub fn renumber(&mut self, name: &str, number: i64) -> Option<()> {
        let range = self.child_of(name, "ElementRange")?;
        self.image.nodes[range].set_numbers(&[number; 2]);
        Some(())
    }

    /// An element of a section, its first or last one or any.
    pub fn element_of(&mut self, name: &str) -> Option<i64> {
        let [first, last] = self.range(name)?;
        let any = self.random.between(first, last);
        Some(*self.random.pick(&[first, last, any]))
    }

    /// A number with either sign.
    pub fn signed(&mut self, number: i64) -> i64 {
        number * *self.random.pick(&[1, -1])
    }

    /// A reference to an element of a section, of either sign.
    pub fn reference_to(&mut self, name: &str) -> Option<i64> {
        let number = self.element_of(name)?;
        Some(self.signed(number))
    }

    /// So many places of references in the connectivity of a section, ascending, counted from 0; often the first one or
    /// the last one is among them.
    fn places(&mut self, name: &str, count: usize) -> Option<Vec<usize>> {
        let section = self.section(name)?;
        let length = self.image.nodes[self.image.child(section, "ElementConnectivity")?].dimensions[0] as usize;
        let types = type_places(self.image, section);
        let mut places: Vec<usize> = (0..length).filter(|place| !types.contains(place)).collect();
        match self.random.below(3) {
            0 => (),
            1 => places.rotate_right(1),
            _ => self.random.shuffle(&mut places),
        }
        self.random.shuffle(places.get_mut(1..)?);
        places.truncate(count);
        places.sort_unstable();
        (places.len() == count).then_some(places)
    }

    /// Puts numbers into the connectivity of a section at any places, in their order; the array has 8 bytes for each
    /// number where 4 are too few. Answers the places, counted from 0.
    pub fn put(&mut self, name: &str, numbers: &[i64]) -> Option<Vec<usize>> {
        let places = self.places(name, numbers.len())?;
        let array = self.child_of(name, "ElementConnectivity")?;
        let mut entries = self.image.nodes[array].numbers();
        for (&place, &number) in places.iter().zip(numbers) {
            entries[place] = number;
        }
        if numbers.iter().any(|&number| i32::try_from(number).is_err()) {
            self.image.nodes[array].data_type = *b"I8";
        }
        self.image.nodes[array].set_list(&entries);
        Some(places)
    }

    /// Puts bad numbers into the connectivity of a section, at any places; it is refused by the rule of the first one.
    pub fn spoil(&mut self, name: &str, bad: &[Bad]) -> Option<Answer> {
        let numbers: Vec<i64> = bad.iter().map(|&(number, _)| number).collect();
        let places = self.put(name, &numbers)?;
        self.refused_at(bad.first()?.1, name, *places.first()? as u64 + 1)
    }
}
