//! Ranges and lists that do not conform (rules 24 and 25), a range beside a list (rule 25), and bad neighbours of points.

use super::site::{Site, MOST_VALUES};
use super::Answer;
use crate::build::Node;
use crate::sizes::MAX_NUMBER;

/// A node that does not conform, the rule that it breaks, and the size that a reader may give that takes it all the same.
pub struct Bad {
    pub node: Node,
    pub rule: u32,
    pub size: u64,
}

/// A range with a begin above its end; now and then the directions before are great.
fn bad_order(site: &mut Site) -> Bad {
    let mut range = site.small_range();
    if site.random.one_in(3) {
        range.fill([-MAX_NUMBER, MAX_NUMBER]);
    }
    let direction = if site.random.one_in(2) { range.len() - 1 } else { site.random.index(range.len()) };
    let begin = site.random.between(-5, 9);
    let choices = [[begin, begin - 1], [begin, -begin - 12], [MAX_NUMBER, -MAX_NUMBER], [-1, -MAX_NUMBER], [2, 0]];
    range[direction] = *site.random.pick(&choices);
    let size = range.iter().map(|[begin, end]| begin.abs_diff(*end) + 1).fold(1, u64::wrapping_mul);
    let width = site.width();
    Bad { node: Node::point_range(width, &range), rule: 25, size }
}

/// A range with -2^31 in a direction.
fn too_small(site: &mut Site) -> Bad {
    let least = -MAX_NUMBER - 1;
    let width = site.width();
    out_of_bounds(site, width, &[[least, least], [least, least + 2], [least, 1]])
}

/// A range with a number in a direction that 4 bytes do not hold.
fn too_great(site: &mut Site) -> Bad {
    let (great, far) = (MAX_NUMBER + 1, 1 << 32);
    let choices = [
        [great, great + 2],
        [great - 3, great],
        [-great - 1, 0],
        [far + 1, far + 3],
        [far - 1, far + 1],
        [1, far + 2],
        [-far + 1, 3],
        [i64::MIN, i64::MIN + 1],
        [i64::MAX - 1, i64::MAX],
        [i64::MIN, i64::MAX],
        [1, i64::MAX],
    ];
    out_of_bounds(site, 8, &choices)
}

/// A range with one of these begins and ends in a direction.
fn out_of_bounds(site: &mut Site, width: usize, choices: &[[i64; 2]]) -> Bad {
    let mut range = site.small_range();
    let direction = site.random.index(range.len());
    range[direction] = *site.random.pick(choices);
    let size = range.iter().map(|[begin, end]| begin.abs_diff(*end).wrapping_add(1)).fold(1, u64::wrapping_mul);
    Bad { node: Node::point_range(width, &range), rule: 25, size }
}

/// Gives a node of points a data type or dimensions that are not its own.
fn break_points(site: &mut Site, node: &mut Node) {
    let wide = node.width() == 8;
    let (d, n) = (node.dimensions[0], node.dimensions[1]);
    match site.random.below(12) {
        0 | 1 => node.data_type = if wide { *b"U8" } else { *b"U4" },
        2 | 3 => node.data_type = if wide { *b"R8" } else { *b"R4" },
        4 => node.dimensions = vec![d * n],
        5 => node.dimensions = vec![d, n, 1],
        6 => node.dimensions = vec![1, d, n],
        7 if d != n => node.dimensions = vec![n, d],
        8 if node.is_named("PointRange") => node.reshape(&[d, 3]),
        9 => {
            node.data_type = *b"MT";
            node.dimensions.clear();
            node.data.clear();
        }
        _ => node.reshape(&[d + 1, n]),
    }
}

/// A range of another type or of other dimensions.
fn bad_range_type(site: &mut Site) -> Bad {
    let (mut node, size) = site.range();
    break_points(site, &mut node);
    Bad { node, rule: 24, size }
}

/// A range that does not conform.
pub fn bad_range(site: &mut Site) -> Bad {
    match site.random.below(4) {
        0 => bad_order(site),
        1 => too_small(site),
        2 => too_great(site),
        _ => bad_range_type(site),
    }
}

/// A list of another type or of other dimensions.
pub fn bad_list(site: &mut Site) -> Bad {
    let (mut node, size) = site.list();
    break_points(site, &mut node);
    Bad { node, rule: 24, size }
}

/// The node behind an array of the zone's size, which passes; the node is refused.
fn behind_zone_array(site: &mut Site, bad: Bad, name: &str) -> Option<Answer> {
    let beside = site.beside();
    let array = site.zone_array("Pressure", &beside)?;
    let flow = site.flow(vec![array, bad.node], beside);
    site.refused(bad.rule, flow, name)
}

/// 25 at a range, a begin above its end.
pub fn begin_above_end(site: &mut Site) -> Option<Answer> {
    let bad = bad_order(site);
    behind_zone_array(site, bad, "PointRange")
}

/// 25 at a range, a number of -2^31.
pub fn number_too_small(site: &mut Site) -> Option<Answer> {
    let bad = too_small(site);
    behind_zone_array(site, bad, "PointRange")
}

/// 25 at a range, a number that 4 bytes do not hold.
pub fn number_too_great(site: &mut Site) -> Option<Answer> {
    let bad = too_great(site);
    behind_zone_array(site, bad, "PointRange")
}

/// 24 at a range.
pub fn range_of_other_type(site: &mut Site) -> Option<Answer> {
    let bad = bad_range_type(site);
    behind_zone_array(site, bad, "PointRange")
}

/// 24 at a list.
pub fn list_of_other_type(site: &mut Site) -> Option<Answer> {
    let bad = bad_list(site);
    behind_zone_array(site, bad, "PointList")
}

/// 25 at a flow solution that has a range and a list, each conforming or not.
pub fn range_and_list(site: &mut Site) -> Option<Answer> {
    let range = if site.random.one_in(2) { site.range() } else { of_bad(bad_range(site)) };
    let list = if site.random.one_in(2) { site.list() } else { of_bad(bad_list(site)) };
    let size = if site.random.one_in(2) { range.1 } else { list.1 };
    let mut nodes = vec![range.0, list.0];
    if (1..=MOST_VALUES).contains(&size) {
        nodes.push(site.array("Pressure", &[size]));
    }
    site.random.shuffle(&mut nodes);
    let beside = site.beside();
    let node = site.flow(nodes, beside);
    Some(Answer::at_node(25, node))
}

/// A node that does not conform, with its size.
fn of_bad(bad: Bad) -> (Node, u64) {
    (bad.node, bad.size)
}

/// 24 or 25 at a Rind or a GridLocation behind points and an array of their count: both are judged all the same.
pub fn bad_neighbour(site: &mut Site) -> Option<Answer> {
    let (points, count) = site.points();
    let mut nodes = vec![points, site.array("Pressure", &[count])];
    site.random.shuffle(&mut nodes);
    let (rule, name, node) = match site.random.below(4) {
        0 => (25, "GridLocation", Node::text("GridLocation", "GridLocation_t", "FaceCenter")),
        1 => (24, "GridLocation", Node::integers("GridLocation", "GridLocation_t", 4, &[1], &[1])),
        2 => {
            let mut rind = site.rind();
            let mut numbers = rind.numbers();
            numbers[0] = -1;
            rind.set_numbers(&numbers);
            (25, "Rind", rind)
        }
        _ => (24, "Rind", Node::integers("Rind", "Rind_t", 4, &[1], &[0])),
    };
    nodes.push(node);
    let flow = site.add("FlowSolution_t", nodes, Vec::new());
    site.refused(rule, flow, name)
}
