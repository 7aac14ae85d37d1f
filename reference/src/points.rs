//! The points of a flow solution (document 02, §1): PointRange and PointList, rules 24 and 25 for them, and how many
//! points they name.

use crate::bytes::Integers;
use crate::labels::Label;
use crate::sizes::{index_dimension, MAX_NUMBER};
use crate::tree::Tree;

/// The fixed name of an IndexRange_t under FlowSolution_t.
pub const POINT_RANGE: &str = "PointRange";
/// The fixed name of an IndexArray_t.
pub const POINT_LIST: &str = "PointList";

/// Whether a node is an IndexRange_t under FlowSolution_t: a range of points, and not of elements.
pub fn is_point_range(tree: &Tree, node: usize) -> bool {
    tree.label(node) == Some(Label::IndexRange) && tree.parent_labelled(node, Label::FlowSolution).is_some()
}

/// IndexDimension of the zone that the flow solution above a node belongs to.
fn zone_dimension(tree: &Tree, node: usize) -> Option<u64> {
    tree.zone_above(node).map(|zone| index_dimension(tree, zone))
}

/// Rule 24 for a range of points: I4 or I8 [IndexDimension, 2].
pub fn range_type_lawful(tree: &Tree, node: usize) -> bool {
    let integer = tree.table.nodes[node].data_type.is_integer();
    integer && zone_dimension(tree, node).is_some_and(|d| tree.table.dimensions(node) == [d, 2])
}

/// Rule 24 for a list of points: I4 or I8 [IndexDimension, count].
pub fn list_type_lawful(tree: &Tree, node: usize) -> bool {
    let integer = tree.table.nodes[node].data_type.is_integer();
    integer && matches!(*tree.table.dimensions(node), [first, _] if Some(first) == zone_dimension(tree, node))
}

/// The begin and the end of each direction of a range of points: the begins are stored first, then the ends.
fn directions(numbers: Integers<'_>) -> impl Iterator<Item = (i64, i64)> + '_ {
    let count = numbers.len() / 2;
    (0..count).filter_map(move |d| Some((numbers.get(d)?, numbers.get(count + d)?)))
}

/// Rule 25 for a range of points: no begin is above its end, and both are within ±2,147,483,647.
pub fn range_values_lawful(numbers: Integers) -> bool {
    directions(numbers).all(|(begin, end)| -MAX_NUMBER <= begin && begin <= end && end <= MAX_NUMBER)
}

/// Rule 25 at a FlowSolution_t: whether it has a PointRange and a PointList by name and label, conforming or not.
pub fn has_range_and_list(tree: &Tree, flow: usize) -> bool {
    let has = |name, label| tree.child(flow, name, label).is_some();
    has(POINT_RANGE, Label::IndexRange) && has(POINT_LIST, Label::IndexArray)
}

/// How many points a FlowSolution_t names: the product of end − begin + 1 of its conforming PointRange, else the count
/// of its conforming PointList. Nothing where it has neither, and under another label. The product is exact: three
/// factors below 2^32.
pub fn point_count(tree: &Tree, flow: usize) -> Option<u128> {
    if tree.label(flow) != Some(Label::FlowSolution) {
        return None;
    }
    if let Some(range) = tree.conforming_child(flow, POINT_RANGE, Label::IndexRange) {
        let lengths = directions(tree.table.integers(range)).map(|(begin, end)| begin.abs_diff(end) + 1);
        return Some(lengths.map(u128::from).product());
    }
    let list = tree.conforming_child(flow, POINT_LIST, Label::IndexArray)?;
    tree.table.dimensions(list).get(1).copied().map(u128::from)
}
