//! Arrays that have not the size that the points give, and arrays of the size of points that do not count (rule 26).

use super::broken::{bad_list, bad_range, Bad};
use super::placing::crossed;
use super::site::{Beside, Site, MOST_VALUES};
use super::Answer;
use crate::build::Node;

/// Lengths whose product is a little above a multiple of 2^64. The first is 2^64 + 4.
pub const BEYOND_64_BITS: [[i64; 3]; 5] = [
    [769_546, 494_770, 48_448_661],
    [203, 110_280_369, 823_996_703],
    [1_423, 99_768_783, 129_933_204],
    [14, 823_996_703, 3_198_130_701],
    [409_891, 7_623_851, 11_806_113],
];

/// Lengths whose product is a little above a multiple of 2^32. The first is 2^32 + 4.
pub const BEYOND_32_BITS: [[i64; 2]; 5] =
    [[100, 42_949_673], [641, 6_700_417], [2, 2_147_483_654], [3, 1_431_655_766], [20_261, 635_946]];

/// Some of these lengths in any order, with a length of 1 in every other direction of the zone.
pub fn great_lengths<const N: usize>(site: &mut Site, choices: &[[i64; N]]) -> Vec<i64> {
    let mut lengths = site.random.pick(choices).to_vec();
    lengths.resize(site.directions, 1);
    site.random.shuffle(&mut lengths);
    lengths
}

/// 26 at an array of a size that is not that of the points beside it, before or behind them.
fn refused_beside(site: &mut Site, points: Node, dimensions: &[u64], beside: Beside) -> Option<Answer> {
    let mut nodes = vec![points, site.array("Pressure", dimensions)];
    site.random.shuffle(&mut nodes);
    let flow = site.flow(nodes, beside);
    site.refused(26, flow, "Pressure")
}

/// Dimensions near one dimension of a count.
fn near(site: &mut Site, count: u64) -> Vec<u64> {
    match site.random.below(5) {
        0 if count > 1 => vec![count - 1],
        1 => vec![count, 1],
        2 => vec![1, count],
        3 => vec![2 * count],
        _ => vec![count + 1],
    }
}

/// An array near the product of a range: one more or less, or with a dimension for each direction.
pub fn other_size_than_range(site: &mut Site) -> Option<Answer> {
    let (points, count) = site.range();
    let numbers = points.numbers();
    let lengths: Vec<u64> =
        (0..site.directions).map(|d| numbers[d].abs_diff(numbers[site.directions + d]) + 1).collect();
    let dimensions = if site.directions > 1 && site.random.one_in(2) { lengths } else { near(site, count) };
    let beside = site.beside();
    refused_beside(site, points, &dimensions, beside)
}

/// An array near the count of a list: one more or less, as many as there are indices, or of both dimensions.
pub fn other_size_than_list(site: &mut Site) -> Option<Answer> {
    let (points, count) = site.list();
    let dimensions = match site.random.below(3) {
        0 => points.dimensions.clone(),
        1 if site.directions > 1 => vec![count * site.directions as u64],
        _ => near(site, count),
    };
    let beside = site.beside();
    refused_beside(site, points, &dimensions, beside)
}

/// An array of the zone's size beside points that conform.
pub fn zone_size_beside_points(site: &mut Site) -> Option<Answer> {
    let (points, count) = site.points();
    let beside = site.beside();
    let array = site.zone_array("Pressure", &beside)?;
    if array.dimensions == [count] {
        return None;
    }
    refused_beside(site, points, &array.dimensions, beside)
}

/// An array of the points' count with the planes of the rind beside them added.
pub fn rind_in_size(site: &mut Site) -> Option<Answer> {
    let (points, count) = site.points();
    let rind = site.rind();
    let planes: i64 = rind.numbers().iter().sum();
    let beside = Beside { nodes: vec![rind], sizes: Vec::new() };
    refused_beside(site, points, &[count + planes as u64], beside)
}

/// An array of what a product leaves beyond its lower bits.
fn product_cut_off(site: &mut Site, lengths: &[i64], bits: u32) -> Option<Answer> {
    let product: u128 = lengths.iter().map(|&length| length as u128).product();
    let rest = (product % (1 << bits)) as u64;
    let points = site.range_of_lengths(lengths);
    let beside = site.beside();
    (1..=MOST_VALUES).contains(&rest).then(|| refused_beside(site, points, &[rest], beside))?
}

/// An array of the product's lower 64 bits.
pub fn product_beyond_64_bits(site: &mut Site) -> Option<Answer> {
    let lengths = great_lengths(site, &BEYOND_64_BITS);
    product_cut_off(site, &lengths, 64)
}

/// An array of the product's lower 32 bits.
pub fn product_beyond_32_bits(site: &mut Site) -> Option<Answer> {
    let lengths = great_lengths(site, &BEYOND_32_BITS);
    product_cut_off(site, &lengths, 32)
}

/// 26 at an array of the size of points that do not count, before them: the zone's sizes stand.
fn before_bad(site: &mut Site, points: Node, size: u64) -> Option<Answer> {
    let beside = site.beside();
    if !(1..=MOST_VALUES).contains(&size) || beside.sizes == [size] {
        return None;
    }
    let array = site.array("Pressure", &[size]);
    let flow = site.flow(vec![array, points], beside);
    site.refused(26, flow, "Pressure")
}

/// An array of the size of a range that does not conform.
pub fn size_of_bad_range(site: &mut Site) -> Option<Answer> {
    let Bad { node, size, .. } = bad_range(site);
    before_bad(site, node, size)
}

/// An array of the count of a list that does not conform.
pub fn size_of_bad_list(site: &mut Site) -> Option<Answer> {
    let Bad { node, size, .. } = bad_list(site);
    before_bad(site, node, size)
}

/// An array of the size of a range or a list under another name.
pub fn size_of_crossed_range(site: &mut Site) -> Option<Answer> {
    let (points, count, _) = crossed(site);
    before_bad(site, points, count)
}

/// A coordinate of the size of points that stand behind it under the same parent.
pub fn size_under_coordinates(site: &mut Site) -> Option<Answer> {
    let (points, count) = site.points();
    if site.vertex_sizes() == [count] {
        return None;
    }
    let array = site.coordinate(&[count])?;
    let grid = site.add("GridCoordinates_t", vec![array, points], Vec::new());
    site.refused(26, grid, "CoordinateX")
}
