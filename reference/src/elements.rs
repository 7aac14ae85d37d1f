//! Element sections (document 01, "Sections"; document 02, §2, §4 and §6): their element types, ranges, start offsets and
//! connectivity; rules 27 to 33 and 38, each as one test that says whether it holds at a validated node; and rules 34 to
//! 37, which are answered together, by the first reference that breaks one of them. For rule 39 see `parents.rs`.

use crate::bytes::Integers;
use crate::face_ranges::{is_element, Faces};
use crate::labels::Label;
use crate::sids::range_of;
use crate::sizes::{cell_dimension, zone_sizes};
use crate::tree::Tree;

/// The element type of a section each of whose elements has a type of its own, stored in front of its nodes.
pub const MIXED: i64 = 20;
/// The element type of a section of faces, each a list of nodes.
pub const NGON_N: i64 = 22;
/// The element type of a section of cells, each a list of faces.
pub const NFACE_N: i64 = 23;

/// How the elements of a type lie in the connectivity.
#[derive(Clone, Copy, Debug, PartialEq, Eq)]
pub enum Shape {
    /// Each element has this many nodes.
    Fixed(u64),
    /// ElementStartOffset says where each element begins.
    Offsets,
    /// ElementStartOffset says where each element begins, with its own type before its nodes.
    Mixed,
}

impl Shape {
    /// Whether start offsets are needed.
    pub fn has_offsets(self) -> bool {
        matches!(self, Shape::Offsets | Shape::Mixed)
    }
}

/// The shape of an element type; nothing for a type that is not supported (rule 27).
pub fn shape_of(element_type: i64) -> Option<Shape> {
    match element_type {
        MIXED => Some(Shape::Mixed),
        NGON_N | NFACE_N => Some(Shape::Offsets),
        _ => nodes_of(element_type).map(Shape::Fixed),
    }
}

/// How many nodes an element of a fixed type has; nothing for another type, so that only these are stored in a MIXED
/// section (rule 38).
pub fn nodes_of(element_type: i64) -> Option<u64> {
    let nodes = match element_type {
        2 => 1,
        3 => 2,
        4 => 3,
        5 => 3,
        6 => 6,
        7 => 4,
        8 => 8,
        9 => 9,
        10 => 4,
        11 => 10,
        12 => 5,
        13 => 14,
        14 => 6,
        15 => 15,
        16 => 18,
        17 => 8,
        18 => 20,
        19 => 27,
        21 => 13,
        _ => return None,
    };
    Some(nodes)
}

/// The fewest references that an element of a type needs in a base of this CellDimension (document 02, §2), repeats
/// counted; nothing where there is no such bound.
pub fn least_size(element_type: i64, cell_dimension: u64) -> Option<u64> {
    match (element_type, cell_dimension) {
        (NGON_N, 3) => Some(3),
        (NFACE_N, 3) => Some(4),
        _ => None,
    }
}

/// A section's own data and its conforming children, as the rules read them.
#[derive(Clone, Copy, Debug)]
pub struct SectionData<'a> {
    pub element_type: i64,
    pub range: (i64, i64),
    pub offsets_node: Option<usize>,
    pub offsets: Integers<'a>,
    pub connectivity_node: usize,
    pub connectivity: Integers<'a>,
}

impl<'a> SectionData<'a> {
    /// The data of an Elements_t node that meets rules 23 to 25; nothing for another node.
    pub fn read(tree: &Tree<'a>, node: usize) -> Option<SectionData<'a>> {
        let array = |name| tree.conforming_child(node, name, Label::DataArray);
        let element_type = element_type_of(tree, node)?;
        let range = element_range(tree, node)?;
        let connectivity_node = array("ElementConnectivity")?;
        let offsets_node = array("ElementStartOffset");
        Some(SectionData {
            element_type,
            range,
            offsets_node,
            offsets: offsets_node.map_or(Integers::NONE, |n| tree.table.integers(n)),
            connectivity_node,
            connectivity: tree.table.integers(connectivity_node),
        })
    }

    /// The number of elements: last − first + 1.
    fn element_count(&self) -> u64 {
        (self.range.1 - self.range.0 + 1) as u64
    }

    /// The shape of its elements.
    fn shape(&self) -> Option<Shape> {
        shape_of(self.element_type)
    }

    /// Whether its elements have start offsets (types 20, 22 and 23).
    fn has_offsets(&self) -> bool {
        self.shape().is_some_and(Shape::has_offsets)
    }

    /// Whether connectivity (fixed types) or start offsets (the others) have the length that the range asks for.
    fn lengths_fit(&self) -> bool {
        let count = u128::from(self.element_count());
        match self.shape() {
            Some(Shape::Fixed(nodes)) => self.connectivity.len() as u128 == count * u128::from(nodes),
            Some(Shape::Offsets | Shape::Mixed) => self.offsets.len() as u128 == count + 1,
            None => true,
        }
    }

    /// Whether `test` holds for the start and the end of each element, a start offset and the one behind it, asked in
    /// order up to the first that fails.
    pub fn all_elements(&self, mut test: impl FnMut(i64, i64) -> bool) -> bool {
        let mut start = None;
        self.offsets.all(|end| start.replace(end).is_none_or(|start| test(start, end)))
    }

    /// The connectivity entry at an index, counted from 0.
    fn entry(&self, index: i64) -> Option<i64> {
        usize::try_from(index).ok().and_then(|index| self.connectivity.get(index))
    }

    /// Whether the connectivity from `start` to `end` holds an element of a MIXED section: a fixed type, and as many
    /// entries behind it as that type has nodes.
    fn is_typed_element(&self, start: i64, end: i64) -> bool {
        let nodes = self.entry(start).and_then(nodes_of);
        nodes.is_some_and(|nodes| i128::from(end) - i128::from(start) == i128::from(nodes) + 1)
    }

    /// The first reference that breaks a rule, as `broken` answers it: of all connectivity entries but the types of a
    /// MIXED section, which are counted all the same.
    fn first_bad(&self, broken: impl Fn(i64) -> Option<u32>) -> Option<BadReference> {
        let found =
            if self.shape() == Some(Shape::Mixed) { self.find_node(broken) } else { self.connectivity.find(broken) };
        found.map(|(index, rule)| BadReference { rule, entry: index as u64 + 1 })
    }

    /// The same in a MIXED section, element by element, with the entry's index, counted from 0.
    fn find_node(&self, broken: impl Fn(i64) -> Option<u32>) -> Option<(usize, u32)> {
        let find = |start: i64, end: i64| {
            let first = usize::try_from(start).ok()?.checked_add(1)?;
            let nodes = self.connectivity.part(first, usize::try_from(end).ok()?)?;
            nodes.find(&broken).map(|(index, rule)| (first + index, rule))
        };
        let mut found = None;
        self.all_elements(|start, end| {
            found = find(start, end);
            found.is_none()
        });
        found
    }
}

/// The element type of a node that is an Elements_t and itself meets rules 24 and 25.
pub fn element_type_of(tree: &Tree, node: usize) -> Option<i64> {
    if tree.label(node) != Some(Label::Elements) || !tree.conforms(node) {
        return None;
    }
    tree.table.integers(node).get(0)
}

/// The element range of a section whose ElementRange conforms.
pub fn element_range(tree: &Tree, node: usize) -> Option<(i64, i64)> {
    let child = tree.conforming_child(node, "ElementRange", Label::IndexRange)?;
    range_of(tree.table.integers(child))
}

/// Whether `holds` is true of the section at a node, or the node is no section that meets rules 23 to 25.
fn of_section(tree: &Tree, node: usize, holds: impl Fn(&SectionData) -> bool) -> bool {
    SectionData::read(tree, node).is_none_or(|section| holds(&section))
}

/// Rule 27: the element type is taken.
pub fn type_taken(tree: &Tree, node: usize) -> bool {
    of_section(tree, node, |s| s.shape().is_some())
}

/// Rule 28: the range meets that of no earlier section of the zone.
pub fn range_free(tree: &Tree, node: usize) -> bool {
    let Some(zone) = tree.parent_labelled(node, Label::Zone) else {
        return true;
    };
    of_section(tree, node, |s| {
        tree.children_labelled(zone, Label::Elements)
            .take_while(|&earlier| earlier < node)
            .filter_map(|earlier| element_range(tree, earlier))
            .all(|(first, last)| last < s.range.0 || s.range.1 < first)
    })
}

/// Rule 29: the lengths fit the range.
pub fn lengths_fit(tree: &Tree, node: usize) -> bool {
    of_section(tree, node, |s| s.lengths_fit())
}

/// Rule 30: the first start offset is 0.
pub fn first_offset_zero(tree: &Tree, node: usize) -> bool {
    of_section(tree, node, |s| !s.has_offsets() || s.offsets.get(0) == Some(0))
}

/// Rule 31: each start offset is above its predecessor.
pub fn offsets_rise(tree: &Tree, node: usize) -> bool {
    of_section(tree, node, |s| !s.has_offsets() || s.all_elements(|start, end| start < end))
}

/// Rule 32: the last start offset is the connectivity length.
pub fn last_offset_is_length(tree: &Tree, node: usize) -> bool {
    of_section(tree, node, |s| !s.has_offsets() || s.offsets.last() == Some(s.connectivity.len() as i64))
}

/// Rule 33: in a base of CellDimension 3 each face has at least 3 nodes and each cell at least 4 faces. Asked of a
/// section that meets rule 31.
pub fn none_flat(tree: &Tree, node: usize) -> bool {
    let Some(zone) = tree.parent_labelled(node, Label::Zone) else {
        return true;
    };
    of_section(tree, node, |s| {
        let least = least_size(s.element_type, cell_dimension(tree, zone));
        least.is_none_or(|least| s.all_elements(|start, end| start.abs_diff(end) >= least))
    })
}

/// Rule 38: each element of a section of type 20 has a stored type of the fixed list that fits its start offsets. Asked
/// of a section that meets rules 29 to 32.
pub fn stored_types_fit(tree: &Tree, node: usize) -> bool {
    of_section(tree, node, |s| {
        s.shape() != Some(Shape::Mixed) || s.all_elements(|start, end| s.is_typed_element(start, end))
    })
}

/// A reference that breaks one of rules 34 to 37, and its place in the connectivity, counted from 1.
#[derive(Clone, Copy, Debug, PartialEq, Eq)]
pub struct BadReference {
    pub rule: u32,
    pub entry: u64,
}

/// Rules 34 to 37: the first bad reference of a section. Asked of a section that meets rules 29 to 32 and 38.
///
/// 34: a reference of a section that is not of type 23 is no node from 1 to VertexSize. Of a section of type 23: 35, a
/// reference is zero; 36, its magnitude is no element of the zone; 37, it is an element of the zone and no face.
pub fn bad_reference(tree: &Tree, node: usize) -> Option<BadReference> {
    let zone = tree.parent_labelled(node, Label::Zone)?;
    let section = SectionData::read(tree, node)?;
    if section.element_type == NFACE_N {
        let faces = Faces::of_zone(tree, zone);
        section.first_bad(|face| broken_by_face(tree, zone, &faces, face))
    } else {
        let vertex_size = zone_sizes(tree, zone).vertex_size[0];
        section.first_bad(|node| (node < 1 || vertex_size < node).then_some(34))
    }
}

/// The one of rules 35, 36 and 37 that a reference of a cell breaks; nothing for a face of the zone.
fn broken_by_face(tree: &Tree, zone: usize, faces: &Faces, reference: i64) -> Option<u32> {
    if faces.index(reference).is_some() {
        None
    } else if reference == 0 {
        Some(35)
    } else if is_element(tree, zone, reference.unsigned_abs()) {
        Some(37)
    } else {
        Some(36)
    }
}
