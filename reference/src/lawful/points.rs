//! Ranges and lists of points of a flow solution (document 02, §1).

use super::Maker;
use crate::build::Node;
use crate::random::Random;
use crate::sizes::MAX_NUMBER;

/// A lawful range of points for so many directions: mostly of few points, begins of either sign and at the ends of
/// what is permitted; now and then of more points than any array has.
pub fn some_range(random: &mut Random, directions: usize) -> Vec<[i64; 2]> {
    let great = random.one_in(8);
    let direction = |random: &mut Random| {
        if great && !random.one_in(3) {
            let begin = random.between(-MAX_NUMBER, 0);
            return [begin, random.between(begin + 16_777_216, MAX_NUMBER)];
        }
        let length = *random.pick(&[1, 1, 2, 2, 3, 4]);
        let begin = match random.below(8) {
            0 => 0,
            1 => -MAX_NUMBER,
            2 => MAX_NUMBER - length + 1,
            3 => -length + 1,
            4 => random.between(-9, -1),
            5 => random.between(-MAX_NUMBER, MAX_NUMBER - length),
            _ => 1,
        };
        [begin, begin + length - 1]
    };
    (0..directions).map(|_| direction(random)).collect()
}

/// Indices of a list of up to `most` points, of any sign and size.
pub fn some_list(random: &mut Random, directions: usize, width: usize, most: i64) -> Vec<i64> {
    let count = random.between(1, most);
    let index = |random: &mut Random| match random.below(8) {
        0 => 0,
        1 if width == 8 => *random.pick(&[i64::MIN, i64::MAX, MAX_NUMBER + 1]),
        1 => i64::from(i32::MIN),
        2 => random.between(-9, -1),
        _ => random.between(1, 9),
    };
    (0..directions as i64 * count).map(|_| index(random)).collect()
}

/// How many points a lawful range has; as many as 64 bits hold where there are more.
pub fn values_of(range: &[[i64; 2]]) -> u64 {
    range.iter().map(|[begin, end]| begin.abs_diff(*end) + 1).fold(1, u64::saturating_mul)
}

impl Maker<'_> {
    /// Adds a PointRange or a PointList to a flow solution; answers how many points it names.
    pub(super) fn points(&mut self, flow: usize, directions: usize) -> u64 {
        let width = self.width();
        if self.random.one_in(2) {
            let range = some_range(self.random, directions);
            self.add(flow, Node::point_range(width, &range));
            values_of(&range)
        } else {
            let indices = some_list(self.random, directions, width, self.limits.elements + 2);
            self.add(flow, Node::point_list(width, directions, &indices));
            (indices.len() / directions) as u64
        }
    }
}
