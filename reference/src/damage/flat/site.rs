//! Sizes of the elements of a zone that a case adds, some of them below the least one.

use crate::damage::site::Site;

/// The fewest nodes of a face and the fewest faces of a cell in three dimensions.
pub const LEAST_FACE: i64 = 3;
pub const LEAST_CELL: i64 = 4;

impl Site<'_> {
    /// Sizes of one to three elements, none below the least one.
    pub fn sizes(&mut self, least: i64) -> Vec<i64> {
        let count = self.random.between(1, 3);
        (0..count).map(|_| least + *self.random.pick(&[0, 0, 1, 2])).collect()
    }

    /// A size below the least one; mostly the next to it.
    pub fn flat_size(&mut self, least: i64) -> i64 {
        if self.random.one_in(2) {
            least - 1
        } else {
            self.random.between(1, least - 1)
        }
    }

    /// The same sizes with one below the least among them.
    pub fn flat_sizes(&mut self, least: i64) -> Vec<i64> {
        let mut sizes = self.sizes(least);
        let place = self.random.index(sizes.len());
        sizes[place] = self.flat_size(least);
        sizes
    }

    /// Sizes of which only the last is below the least one; there is one before it.
    pub fn flat_last_sizes(&mut self, least: i64) -> Vec<i64> {
        let mut sizes = self.sizes(least);
        sizes.push(self.flat_size(least));
        sizes
    }
}
