//! What is read from an image (document 01, "Handing out"; document 02, §4 and §7): sizes of arrays, section entries, corners and
//! types of elements, and array values.

use crate::bytes::{signed_at, u32_at, u64_at};
use crate::data_type::DataType;
use crate::elements::{nodes_of, shape_of, SectionData, Shape};
use crate::labels::Label;
use crate::parents::parents_node;
use crate::rejection::Rejection;
use crate::sizes::{data_size_of, DataSize};
use crate::table::Table;
use crate::tree::Tree;
use crate::validation::{validated_tree, zone_asked_for};

/// DataSize of a validated DataArray_t under GridCoordinates_t or FlowSolution_t; or the verdict's refusal, or 40.
pub fn data_size(image: &[u8], node: u64) -> Result<DataSize, Rejection> {
    let tree = validated_tree(image)?;
    let node = tree.table.node_asked_for(node)?;
    let size = data_size_of(&tree, node).filter(|_| tree.is_validated(node));
    size.ok_or(Rejection::of_call(40))
}

/// How many numbers a section entry has.
pub const ENTRY_LENGTH: usize = 11;

/// A section entry. Byte offsets count from the image's start; offset and width are 0 where there is no array.
#[derive(Clone, Copy, Debug, Default, PartialEq, Eq)]
pub struct Section {
    pub node: u64,
    pub element_type: u64,
    pub first: u64,
    pub last: u64,
    pub offsets_at: u64,
    pub offsets_width: u64,
    pub connectivity_at: u64,
    pub connectivity_width: u64,
    pub connectivity_length: u64,
    pub parents_at: u64,
    pub parents_width: u64,
}

impl Section {
    /// The entry as its numbers, in order.
    pub fn numbers(&self) -> [u64; ENTRY_LENGTH] {
        [
            self.node,
            self.element_type,
            self.first,
            self.last,
            self.offsets_at,
            self.offsets_width,
            self.connectivity_at,
            self.connectivity_width,
            self.connectivity_length,
            self.parents_at,
            self.parents_width,
        ]
    }

    /// The entry that so many numbers make.
    pub fn of_numbers(numbers: &[u64; ENTRY_LENGTH]) -> Section {
        let [node, element_type, first, last, offsets_at, offsets_width, connectivity_at, connectivity_width, connectivity_length, parents_at, parents_width] =
            *numbers;
        Section {
            node,
            element_type,
            first,
            last,
            offsets_at,
            offsets_width,
            connectivity_at,
            connectivity_width,
            connectivity_length,
            parents_at,
            parents_width,
        }
    }

    /// The entry of a section of an accepted image.
    fn of(tree: &Tree, node: usize) -> Option<Section> {
        let data = SectionData::read(tree, node)?;
        let place = |n: usize| tree.table.nodes[n].data_at as u64;
        let parents = parents_node(tree, node);
        Some(Section {
            node: node as u64,
            element_type: data.element_type as u64,
            first: data.range.0 as u64,
            last: data.range.1 as u64,
            offsets_at: data.offsets_node.map_or(0, place),
            offsets_width: data.offsets.width() as u64,
            connectivity_at: place(data.connectivity_node),
            connectivity_width: data.connectivity.width() as u64,
            connectivity_length: data.connectivity.len() as u64,
            parents_at: parents.map_or(0, place),
            parents_width: parents.map_or(0, |n| tree.table.integers(n).width() as u64),
        })
    }
}

/// The entries of a zone's validated sections in node order; or the verdict's refusal, or 40.
pub fn section_entries(image: &[u8], zone: u64) -> Result<Vec<Section>, Rejection> {
    let tree = validated_tree(image)?;
    let zone = zone_asked_for(&tree, zone)?;
    Ok(tree.children_labelled(zone, Label::Elements).filter_map(|node| Section::of(&tree, node)).collect())
}

/// Writes a zone's entries to the front of `out` and answers their count; or the verdict's refusal, 40, or 46 when they
/// do not fit. A refusal leaves `out` as it was, and so do the places past the entries.
pub fn section_entries_into(image: &[u8], zone: u64, out: &mut [Section]) -> Result<usize, Rejection> {
    let entries = section_entries(image, zone)?;
    let room = out.get_mut(..entries.len()).ok_or(Rejection::of_call(46))?;
    room.copy_from_slice(&entries);
    Ok(entries.len())
}

/// The signed number at a corner of an element, by any numbers of an entry and any bytes; or 41, 43, 42, in that order.
pub fn corner(image: &[u8], section: &[u64; ENTRY_LENGTH], element: u64, corner: u64) -> Result<i64, Rejection> {
    let section = Section::of_numbers(section);
    let read = read_element(image, &section, element)?;
    let size = read.corners.end - read.corners.start;
    if corner == 0 || u128::from(corner) > size {
        return Err(Rejection::of_call(42));
    }
    let index = read.corners.start + u128::from(corner) - 1;
    connectivity_entry(image, &section, index).ok_or(Rejection::of_call(43))
}

/// The type of an element, by any numbers of an entry and any bytes: the stored one in a section of type 20, else the
/// section's; or 41, 43, in that order.
pub fn element_type(image: &[u8], section: &[u64; ENTRY_LENGTH], element: u64) -> Result<u64, Rejection> {
    read_element(image, &Section::of_numbers(section), element).map(|read| read.element_type)
}

/// All corners of an element, from 1 on, to the front of `out`, and how many they are; or 41, 43, and 46 where `out` is too short.
pub fn element_corners(
    image: &[u8],
    section: &[u64; ENTRY_LENGTH],
    element: u64,
    out: &mut [i64],
) -> Result<usize, Rejection> {
    let mut corners = Vec::new();
    loop {
        match corner(image, section, element, corners.len() as u64 + 1) {
            Ok(number) => corners.push(number),
            Err(Rejection { rule: 42, .. }) => break,
            Err(rejection) => return Err(rejection),
        }
    }
    let front = out.get_mut(..corners.len()).ok_or(Rejection::of_call(46))?;
    front.copy_from_slice(&corners);
    Ok(corners.len())
}

/// Where an element, or what it refers to, lies in the connectivity, counted from 0; start is below end, and end within
/// the connectivity.
#[derive(Clone, Copy, Debug)]
struct Span {
    start: u128,
    end: u128,
}

/// An element as the calls read it.
struct ReadElement {
    element_type: u64,
    /// Its corners: all of its entries but the stored type of an element of a MIXED section.
    corners: Span,
}

/// An element of a section; or 41, 43, in that order.
fn read_element(image: &[u8], section: &Section, element: u64) -> Result<ReadElement, Rejection> {
    if element < section.first || section.last < element {
        return Err(Rejection::of_call(41));
    }
    let read = element_span(image, section, element).and_then(|span| own_element(image, section, span));
    read.ok_or(Rejection::of_call(43))
}

/// The element that a span holds; nothing in a section of type 20 whose stored type is not of the fixed list or does not
/// fit the span.
fn own_element(image: &[u8], section: &Section, span: Span) -> Option<ReadElement> {
    if shape_of(i64::try_from(section.element_type).ok()?)? != Shape::Mixed {
        return Some(ReadElement { element_type: section.element_type, corners: span });
    }
    let stored = connectivity_entry(image, section, span.start)?;
    let fits = u128::from(nodes_of(stored)?) + 1 == span.end - span.start;
    let corners = Span { start: span.start + 1, end: span.end };
    fits.then_some(ReadElement { element_type: u64::try_from(stored).ok()?, corners })
}

/// The connectivity entry at an index, counted from 0; nothing where it cannot be read.
fn connectivity_entry(image: &[u8], section: &Section, index: u128) -> Option<i64> {
    let width = section.connectivity_width;
    read_signed(image, u128::from(section.connectivity_at) + u128::from(width) * index, width)
}

/// The span of an element in the section's range; nothing where rule 43 is to be given.
fn element_span(image: &[u8], section: &Section, element: u64) -> Option<Span> {
    let shape = shape_of(i64::try_from(section.element_type).ok()?)?;
    let length = u128::from(section.connectivity_length);
    let connectivity = lies_within(image, u128::from(section.connectivity_at), section.connectivity_width, length);
    let index = u128::from(element - section.first);
    let (start, end) = match shape {
        Shape::Fixed(nodes) => {
            let start = index * u128::from(nodes);
            (start, start + u128::from(nodes))
        }
        Shape::Offsets | Shape::Mixed => start_offsets(image, section, index)?,
    };
    (connectivity && start < end && end <= length).then_some(Span { start, end })
}

/// The start offsets at `index` and the one after it; nothing when they cannot be read or one is negative.
fn start_offsets(image: &[u8], section: &Section, index: u128) -> Option<(u128, u128)> {
    let width = u128::from(section.offsets_width);
    let at = u128::from(section.offsets_at) + width * index;
    let start = read_signed(image, at, section.offsets_width)?;
    let end = read_signed(image, at + width, section.offsets_width)?;
    Some((u128::try_from(start).ok()?, u128::try_from(end).ok()?))
}

/// Whether the width is 4 or 8 and that many bytes for each of `count` numbers lie within the image.
fn lies_within(image: &[u8], at: u128, width: u64, count: u128) -> bool {
    matches!(width, 4 | 8) && at + u128::from(width) * count <= image.len() as u128
}

/// The signed number of `width` bytes at a byte offset; nothing for another width than 4 or 8, or outside the image.
fn read_signed(image: &[u8], at: u128, width: u64) -> Option<i64> {
    lies_within(image, at, width, 1).then(|| signed_at(image, at as usize, width as usize))
}

/// One read of a list: an entry, an element and a corner.
#[derive(Clone, Copy, Debug, PartialEq, Eq)]
pub struct CornerRead {
    pub section: [u64; ENTRY_LENGTH],
    pub element: u64,
    pub corner: u64,
}

/// The answers of a list of corner reads, in order.
pub fn corner_reads(image: &[u8], reads: &[CornerRead]) -> Vec<Result<i64, Rejection>> {
    reads.iter().map(|read| corner(image, &read.section, read.element, read.corner)).collect()
}

/// A list of reads, each an entry's number, an element and a corner: the numbers (0 for a refusal) to the front of `numbers` and the rules (0
/// for a number) to the front of `rules`, and how many they are; 40 is the rule where there is no such entry. Or 46, nothing written, where one
/// of the two is too short.
pub fn corner_reads_into(
    image: &[u8],
    entries: &[[u64; ENTRY_LENGTH]],
    reads: &[[u64; 3]],
    numbers: &mut [i64],
    rules: &mut [u64],
) -> Result<usize, Rejection> {
    if numbers.len() < reads.len() || rules.len() < reads.len() {
        return Err(Rejection::of_call(46));
    }
    for (k, &[which, element, number]) in reads.iter().enumerate() {
        let entry = usize::try_from(which).ok().and_then(|which| entries.get(which));
        let answer = entry.ok_or(Rejection::of_call(40)).and_then(|entry| corner(image, entry, element, number));
        (numbers[k], rules[k]) = match answer {
            Ok(stored) => (stored, 0),
            Err(rejection) => (0, u64::from(rejection.rule)),
        };
    }
    Ok(reads.len())
}

/// One value of an array: a whole number, or the bits of a single or a double, unchanged.
#[derive(Clone, Copy, Debug, PartialEq, Eq)]
pub enum Value {
    Whole(i64),
    Single(u32),
    Double(u64),
}

/// The k-th value, counted from 1, of any node; or one of rules 1 to 18, 40, 47, 42.
pub fn array_value(image: &[u8], node: u64, k: u64) -> Result<Value, Rejection> {
    let table = Table::read(image)?;
    let node = table.node_asked_for(node)?;
    let data_type = table.nodes[node].data_type;
    let data = table.data(node);
    let read: fn(&[u8], usize) -> Value = match data_type {
        DataType::I4 => |data, at| Value::Whole(signed_at(data, at, 4)),
        DataType::I8 => |data, at| Value::Whole(signed_at(data, at, 8)),
        DataType::R4 => |data, at| Value::Single(u32_at(data, at)),
        DataType::R8 => |data, at| Value::Double(u64_at(data, at)),
        _ => return Err(Rejection::of_call(47)),
    };
    let count = (data.len() / data_type.width()) as u64;
    if k == 0 || k > count {
        return Err(Rejection::of_call(42));
    }
    Ok(read(data, (k - 1) as usize * data_type.width()))
}
