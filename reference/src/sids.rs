//! Rules 20 to 26 (document 01, "Placing and meaning"; document 02, §1), each as one test that says whether it holds at a
//! validated node. A rule that does not concern a node holds there. There is no rule 22 (document 02, §5).

use crate::bytes::Integers;
use crate::data_type::DataType;
use crate::labels::{fixed_name, may_hold, Label, Parent};
use crate::points::{has_range_and_list, is_point_range, list_type_lawful, range_type_lawful, range_values_lawful};
use crate::sizes::{data_size_of, index_dimension, is_structured, is_unstructured};
use crate::sizes::{read_zone_sizes, ZoneSizes, MAX_NUMBER};
use crate::tree::Tree;

/// Rule 20: the containment table has the node's label under its parent; Elements_t in unstructured zones only.
pub fn contained(tree: &Tree, node: usize) -> bool {
    let (Some(label), Some(parent)) = (tree.label(node), tree.parent(node)) else {
        return true;
    };
    let placed = tree.parent_row(node).is_some_and(|row| may_hold(row, label));
    placed && (label != Label::Elements || is_unstructured(tree, parent))
}

/// Rule 21: a label with a fixed name has it.
pub fn fixed_name_used(tree: &Tree, node: usize) -> bool {
    let (Some(label), Some(row)) = (tree.label(node), tree.parent_row(node)) else {
        return true;
    };
    fixed_name(row, label).is_none_or(|name| tree.is_named(node, name))
}

/// Rule 23: the required children are there. Under the root a child labelled CGNSBase_t will do; the others conform.
pub fn required_children(tree: &Tree, node: usize) -> bool {
    if node == 0 {
        return tree.children_labelled(0, Label::CGNSBase).next().is_some();
    }
    let has = |name, label| tree.conforming_child(node, name, label).is_some();
    match tree.label(node) {
        Some(Label::Zone) => has("ZoneType", Label::ZoneType),
        Some(Label::Elements) => has("ElementRange", Label::IndexRange) && has("ElementConnectivity", Label::DataArray),
        _ => true,
    }
}

/// Rule 24: data type and dimensions are the label's; the root is MT.
pub fn type_lawful(tree: &Tree, node: usize) -> bool {
    let data_type = tree.table.nodes[node].data_type;
    let dimensions = tree.table.dimensions(node);
    if node == 0 {
        return data_type == DataType::MT;
    }
    let Some(label) = tree.label(node) else {
        return true;
    };
    match label {
        Label::CGNSLibraryVersion => data_type == DataType::R4 && dimensions == [1],
        Label::GridCoordinates | Label::FlowSolution | Label::UserDefinedData => data_type == DataType::MT,
        Label::Descriptor | Label::ZoneType | Label::GridLocation => data_type == DataType::C1 && dimensions.len() == 1,
        Label::CGNSBase | Label::Elements => data_type == DataType::I4 && dimensions == [2],
        Label::Zone => data_type.is_integer() && dimensions == [index_dimension(tree, node), 3],
        Label::Rind => {
            let zone = tree.zone_above(node);
            data_type == DataType::I4 && zone.is_some_and(|zone| dimensions == [2 * index_dimension(tree, zone)])
        }
        Label::IndexRange if is_point_range(tree, node) => range_type_lawful(tree, node),
        Label::IndexRange => data_type.is_integer() && dimensions == [2],
        Label::IndexArray => list_type_lawful(tree, node),
        Label::DataArray => array_type_lawful(tree, node, data_type, dimensions),
    }
}

/// Rule 24 for a DataArray_t, by its parent.
fn array_type_lawful(tree: &Tree, node: usize, data_type: DataType, dimensions: &[u64]) -> bool {
    use DataType::*;
    match tree.parent_row(node) {
        Some(Parent::Labelled(Label::GridCoordinates)) => matches!(data_type, R4 | R8),
        Some(Parent::Labelled(Label::FlowSolution)) => matches!(data_type, I4 | I8 | R4 | R8),
        Some(Parent::Labelled(Label::Elements)) => {
            if tree.is_named(node, "ElementConnectivity") || tree.is_named(node, "ElementStartOffset") {
                data_type.is_integer() && dimensions.len() == 1
            } else {
                data_type != MT
            }
        }
        _ => false,
    }
}

/// Rule 25: the stored values are permitted. Asked of a node that meets rule 24.
pub fn values_lawful(tree: &Tree, node: usize) -> bool {
    let Some(label) = tree.label(node) else {
        return true;
    };
    let data = tree.table.data(node);
    let numbers = tree.table.integers(node);
    match label {
        Label::CGNSBase => dimensions_lawful(numbers),
        Label::ZoneType => data == b"Structured" || data == b"Unstructured",
        Label::GridLocation => data == b"Vertex" || data == b"CellCenter",
        Label::Zone => zone_lawful(tree, node),
        Label::Rind => numbers.all(|planes| planes >= 0),
        Label::Elements => numbers.get(1).is_some_and(|boundary| boundary >= 0),
        Label::IndexRange if is_point_range(tree, node) => range_values_lawful(numbers),
        Label::IndexRange => range_of(numbers).is_some(),
        Label::FlowSolution => !has_range_and_list(tree, node),
        _ => true,
    }
}

/// Whether CellDimension is 1 to 3 and PhysicalDimension from that to 3.
fn dimensions_lawful(numbers: Integers) -> bool {
    match (numbers.get(0), numbers.get(1)) {
        (Some(cell), Some(physical)) => 1 <= cell && cell <= physical && physical <= 3,
        _ => false,
    }
}

/// The first and last number of an element range, when 1 ≤ first ≤ last ≤ 2,147,483,647.
pub fn range_of(numbers: Integers) -> Option<(i64, i64)> {
    let (first, last) = (numbers.get(0)?, numbers.get(1)?);
    (1 <= first && first <= last && last <= MAX_NUMBER).then_some((first, last))
}

/// Whether the sizes of a zone that meets rule 24 are lawful in each direction.
fn zone_lawful(tree: &Tree, zone: usize) -> bool {
    let directions = tree.table.dimensions(zone).first().map_or(0, |&d| d.min(3)) as usize;
    let sizes = read_zone_sizes(tree.table.integers(zone), directions);
    let structured = is_structured(tree, zone);
    (0..directions).all(|direction| direction_lawful(&sizes, direction, structured))
}

/// Whether a zone's three sizes in one direction are lawful.
fn direction_lawful(sizes: &ZoneSizes, direction: usize, structured: bool) -> bool {
    let vertices = sizes.vertex_size[direction];
    let cells = sizes.cell_size[direction];
    let boundary = sizes.vertex_size_boundary[direction];
    let bounded = [vertices, cells, boundary].iter().all(|&n| n <= MAX_NUMBER);
    let fitting = if structured {
        vertices >= 2 && i128::from(cells) == i128::from(vertices) - 1 && boundary == 0
    } else {
        vertices >= 1 && cells >= 0 && 0 <= boundary && boundary <= vertices
    };
    bounded && fitting
}

/// Rule 26: a coordinate or flow array has exactly the dimensions of DataSize.
pub fn array_sized(tree: &Tree, node: usize) -> bool {
    data_size_of(tree, node).is_none_or(|size| tree.table.dimensions(node) == size.dimensions())
}
