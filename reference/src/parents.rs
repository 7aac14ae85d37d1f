//! Parents of faces (document 02, §7): rule 39, the two parents of a face, and whether the parents agree with the cells.

use crate::bytes::Integers;
use crate::elements::{element_range, element_type_of, SectionData, NFACE_N, NGON_N};
use crate::face_ranges::Cells;
use crate::faces::write_usage;
use crate::labels::Label;
use crate::rejection::Rejection;
use crate::tree::Tree;
use crate::validation::{validated_tree, zone_asked_for};

/// The name of the array that holds the parents of a face section.
pub const PARENT_ELEMENTS: &str = "ParentElements";

/// The array of parents of a section of type 22, told by name and label alone; nothing in a section of another type.
pub fn parents_node(tree: &Tree, section: usize) -> Option<usize> {
    let of_faces = element_type_of(tree, section)? == NGON_N;
    tree.child(section, PARENT_ELEMENTS, Label::DataArray).filter(|_| of_faces)
}

/// Rule 39: the parents of a section of type 22, where it has them, are I4 or I8 with the dimensions [n, 2]; each number
/// of the first column is a cell of the zone, each of the second 0 or such a cell. Asked of a section that meets rules 23
/// to 34.
pub fn parents_lawful(tree: &Tree, node: usize) -> bool {
    let (Some(zone), Some(array)) = (tree.parent_labelled(node, Label::Zone), parents_node(tree, node)) else {
        return true;
    };
    let Some(parents) = Parents::read(tree, node, array) else {
        return false;
    };
    let cells = Cells::of_zone(tree, zone);
    parents.firsts.all(|parent| cells.has(parent)) && parents.seconds.all(|parent| parent == 0 || cells.has(parent))
}

/// The parents of a face section: the first of each face, and the second.
#[derive(Clone, Copy, Debug)]
struct Parents<'a> {
    firsts: Integers<'a>,
    seconds: Integers<'a>,
}

impl<'a> Parents<'a> {
    /// The parents that an array of a section stores, column by column; nothing where it is not I4 or I8 or has not the
    /// dimensions [n, 2].
    fn read(tree: &Tree<'a>, section: usize, array: usize) -> Option<Parents<'a>> {
        let (first, last) = element_range(tree, section)?;
        let count = (last - first + 1) as u64;
        let fits = tree.table.nodes[array].data_type.is_integer() && tree.table.dimensions(array) == [count, 2];
        let (numbers, count) = (tree.table.integers(array), count as usize);
        let column = |start: usize| numbers.part(start, start + count).filter(|_| fits);
        Some(Parents { firsts: column(0)?, seconds: column(count)? })
    }

    /// The two parents of the face at an index, counted from 0.
    fn of_face(&self, index: u64) -> Option<[u64; 2]> {
        let index = index as usize;
        Some([self.firsts.get(index)? as u64, self.seconds.get(index)? as u64])
    }
}

/// A face section of an accepted image: its first and its last face, and its parents, where it has them.
struct FaceSection<'a> {
    first: u64,
    last: u64,
    parents: Option<Parents<'a>>,
}

/// The face sections of a zone of an accepted image, in node order.
fn face_sections<'a>(tree: &Tree<'a>, zone: usize) -> Vec<FaceSection<'a>> {
    let sections = tree.children_labelled(zone, Label::Elements);
    let of_faces = sections.filter(|&section| element_type_of(tree, section) == Some(NGON_N));
    let read = |section| {
        let (first, last) = element_range(tree, section)?;
        let parents = parents_node(tree, section).and_then(|array| Parents::read(tree, section, array));
        Some(FaceSection { first: first as u64, last: last as u64, parents })
    };
    of_faces.filter_map(read).collect()
}

/// The two parents of a face of a zone, the second 0 where there is none; or the verdict's refusal, 40, 41 where the
/// number is no face of the zone, 54 where its section has no parents.
pub fn parents(image: &[u8], zone: u64, face: u64) -> Result<[u64; 2], Rejection> {
    let tree = validated_tree(image)?;
    let zone = zone_asked_for(&tree, zone)?;
    let sections = face_sections(&tree, zone);
    let section = sections.iter().find(|s| s.first <= face && face <= s.last).ok_or(Rejection::of_call(41))?;
    section.parents.and_then(|parents| parents.of_face(face - section.first)).ok_or(Rejection::of_call(54))
}

/// Whether the parents of all face sections of a zone that have them agree with its cells; or the verdict's refusal, 40,
/// 54 where no section has them, and 44 or 45 as face usage gives them. After an answer, after 44 and after 45 `out` is as
/// face usage leaves it; every other refusal leaves it as it was.
pub fn parents_agree(image: &[u8], zone: u64, out: &mut [u8]) -> Result<bool, Rejection> {
    let tree = validated_tree(image)?;
    let zone = zone_asked_for(&tree, zone)?;
    let sections = face_sections(&tree, zone);
    if sections.iter().all(|section| section.parents.is_none()) {
        return Err(Rejection::of_call(54));
    }
    write_usage(&tree, zone, out)?;
    let uses = Uses::of_zone(&tree, zone);
    let agrees = |section: &FaceSection| {
        section.parents.is_none_or(|parents| {
            (section.first..=section.last).all(|face| {
                let pair = parents.of_face(face - section.first);
                pair.is_some_and(|pair| is_pair_of(pair, &uses.cells(face)))
            })
        })
    };
    Ok(sections.iter().all(agrees))
}

/// Whether a pair of parents is that of a face that these cells use, one cell twice where it uses both sides.
fn is_pair_of([first, second]: [u64; 2], cells: &[u64]) -> bool {
    match *cells {
        [cell] => [first, second] == [cell, 0],
        [one, other] => [first, second] == [one, other] || [first, second] == [other, one],
        _ => false,
    }
}

/// Which cells of a zone use which faces: face and cell of each use, ascending.
struct Uses {
    uses: Vec<(u64, u64)>,
}

impl Uses {
    /// The uses of an accepted image's zone.
    fn of_zone(tree: &Tree, zone: usize) -> Uses {
        let mut uses = Vec::new();
        for node in tree.children_labelled(zone, Label::Elements) {
            let Some(cells) = SectionData::read(tree, node).filter(|section| section.element_type == NFACE_N) else {
                continue;
            };
            let mut cell = cells.range.0 as u64;
            cells.all_elements(|start, end| {
                let faces = cells.connectivity.part(start as usize, end as usize).unwrap_or(Integers::NONE);
                faces.all(|face| {
                    uses.push((face.unsigned_abs(), cell));
                    true
                });
                cell += 1;
                true
            });
        }
        uses.sort_unstable();
        Uses { uses }
    }

    /// The cells that use a face, each as often as it does.
    fn cells(&self, face: u64) -> Vec<u64> {
        let first = self.uses.partition_point(|&(used, _)| used < face);
        self.uses[first..].iter().take_while(|&&(used, _)| used == face).map(|&(_, cell)| cell).collect()
    }
}
