//! MIXED sections of a zone that a case adds. Their elements are lists, each with its type in front.

use crate::damage::site::Site;
use crate::elements::MIXED;
use crate::lawful::{some_types, typed_element};

impl Site<'_> {
    /// The types of two to four elements, now and then of up to nine.
    pub fn types(&mut self) -> Vec<i64> {
        let most = *self.random.pick(&[4, 4, 4, 9]);
        let count = self.random.between(2, most) as usize;
        some_types(self.random, count)
    }

    /// Elements of these types, with any nodes of the zone.
    pub fn typed(&mut self, types: &[i64]) -> Vec<Vec<i64>> {
        types.iter().map(|&own_type| typed_element(self.random, own_type, self.vertices)).collect()
    }

    /// Elements of any types, two at least.
    pub fn some_typed(&mut self) -> Vec<Vec<i64>> {
        let types = self.types();
        self.typed(&types)
    }

    /// Adds a MIXED section of these elements, under its usual name.
    pub fn add_mixed(&mut self, elements: &[Vec<i64>]) {
        self.add("Mixed", MIXED, elements);
    }

    /// A place behind the type of an element, often the first or the last.
    pub fn node_place(&mut self, element: &[i64]) -> usize {
        let last = element.len() - 1;
        let any = 1 + self.random.index(last);
        *self.random.pick(&[1, last, any])
    }
}
