//! Sizes of the SIDS (001): CellDimension, IndexDimension, a zone's VertexSize, CellSize and VertexSizeBoundary, Rind,
//! GridLocation, and from them or from a flow solution's points DataSize.

use crate::bytes::Integers;
use crate::labels::Label;
use crate::points::point_count;
use crate::tree::Tree;

/// The greatest number that a zone or an element range may hold.
pub const MAX_NUMBER: i64 = 2_147_483_647;

/// A zone's three sizes, one number a direction.
#[derive(Clone, Copy, Debug, PartialEq, Eq)]
pub struct ZoneSizes {
    pub directions: usize,
    pub vertex_size: [i64; 3],
    pub cell_size: [i64; 3],
    pub vertex_size_boundary: [i64; 3],
}

/// The dimensions that an array has to have: the number of directions, and the size in each (0 past them).
#[derive(Clone, Copy, Debug, PartialEq, Eq)]
pub struct DataSize {
    pub directions: usize,
    pub sizes: [u64; 3],
}

impl DataSize {
    /// The sizes of the directions there are.
    pub fn dimensions(&self) -> &[u64] {
        &self.sizes[..self.directions]
    }
}

/// Whether the zone's conforming ZoneType child has this text.
fn zone_type_is(tree: &Tree, zone: usize, text: &[u8]) -> bool {
    tree.conforming_child(zone, "ZoneType", Label::ZoneType).is_some_and(|child| tree.table.data(child) == text)
}

/// Whether a zone is structured.
pub fn is_structured(tree: &Tree, zone: usize) -> bool {
    zone_type_is(tree, zone, b"Structured")
}

/// Whether a zone is unstructured.
pub fn is_unstructured(tree: &Tree, zone: usize) -> bool {
    zone_type_is(tree, zone, b"Unstructured")
}

/// CellDimension of a zone's own base; 0 for a base that does not conform (it is refused before any zone of it is
/// looked at).
pub fn cell_dimension(tree: &Tree, zone: usize) -> u64 {
    let base = tree.parent_labelled(zone, Label::CGNSBase).filter(|&base| tree.conforms(base));
    let stored = base.and_then(|base| tree.table.integers(base).get(0)).unwrap_or(0);
    u64::try_from(stored).unwrap_or(0)
}

/// A zone's IndexDimension: CellDimension of its base if structured, else 1.
pub fn index_dimension(tree: &Tree, zone: usize) -> u64 {
    if is_structured(tree, zone) {
        cell_dimension(tree, zone)
    } else {
        1
    }
}

/// A zone's sizes, from data that hold `directions` numbers of each, VertexSize first. Numbers not there are 0.
pub fn read_zone_sizes(numbers: Integers, directions: usize) -> ZoneSizes {
    let row = |row: usize| {
        let mut sizes = [0; 3];
        for (direction, size) in sizes.iter_mut().enumerate().take(directions) {
            *size = numbers.get(row * directions + direction).unwrap_or(0);
        }
        sizes
    };
    ZoneSizes { directions, vertex_size: row(0), cell_size: row(1), vertex_size_boundary: row(2) }
}

/// The sizes of a zone.
pub fn zone_sizes(tree: &Tree, zone: usize) -> ZoneSizes {
    let directions = index_dimension(tree, zone).min(3) as usize;
    read_zone_sizes(tree.table.integers(zone), directions)
}

/// Whether arrays under a node stand at cell centres: a FlowSolution_t whose conforming GridLocation says CellCenter.
fn at_cell_centers(tree: &Tree, node: usize) -> bool {
    tree.label(node) == Some(Label::FlowSolution)
        && tree
            .conforming_child(node, "GridLocation", Label::GridLocation)
            .is_some_and(|child| tree.table.data(child) == b"CellCenter")
}

/// The rind numbers under a node: those of its conforming Rind, by default none at all (they are zeros).
fn rind<'a>(tree: &Tree<'a>, node: usize) -> Integers<'a> {
    tree.conforming_child(node, "Rind", Label::Rind).map_or(Integers::NONE, |child| tree.table.integers(child))
}

/// DataSize of one direction, of so many points. More than 64 bits hold is more than any array has, and so is the
/// greatest number of 64 bits.
fn one_direction(points: u128) -> DataSize {
    DataSize { directions: 1, sizes: [u64::try_from(points).unwrap_or(u64::MAX), 0, 0] }
}

/// DataSize of the arrays under a GridCoordinates_t or FlowSolution_t of a zone: where a flow solution names points, one
/// direction with their count; else VertexSize, or CellSize at cell centres, plus in each direction the two rind
/// numbers of that direction.
pub fn data_size_under(tree: &Tree, node: usize, zone: usize) -> DataSize {
    if let Some(points) = point_count(tree, node) {
        return one_direction(points);
    }
    let zone_sizes = zone_sizes(tree, zone);
    let core = if at_cell_centers(tree, node) { zone_sizes.cell_size } else { zone_sizes.vertex_size };
    let rind = rind(tree, node);
    let mut sizes = [0; 3];
    for (direction, size) in sizes.iter_mut().enumerate().take(zone_sizes.directions) {
        let planes = |k: usize| i128::from(rind.get(2 * direction + k).unwrap_or(0));
        let sum = i128::from(core[direction]) + planes(0) + planes(1);
        *size = u64::try_from(sum).unwrap_or(0);
    }
    DataSize { directions: zone_sizes.directions, sizes }
}

/// DataSize of a DataArray_t under GridCoordinates_t or FlowSolution_t; nothing for another node.
pub fn data_size_of(tree: &Tree, array: usize) -> Option<DataSize> {
    if tree.label(array) != Some(Label::DataArray) {
        return None;
    }
    let parent = tree
        .parent_labelled(array, Label::GridCoordinates)
        .or_else(|| tree.parent_labelled(array, Label::FlowSolution))?;
    let zone = tree.parent_labelled(parent, Label::Zone)?;
    Some(data_size_under(tree, parent, zone))
}
