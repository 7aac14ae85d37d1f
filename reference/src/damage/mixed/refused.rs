//! Cases that are refused: by rule 38, by 34 at a node, and by the rules beside them where these come first.

use super::Answer;
use crate::build::Node;
use crate::damage::flat::{LEAST_CELL, LEAST_FACE};
use crate::damage::sections::lose_offsets;
use crate::damage::site::Site;
use crate::damage::stored_types::{shift_start, unlisted_type};
use crate::elements::MIXED;
use crate::lawful::{types_of_other_size, FIXED_TYPES};

/// Adds MIXED elements, which are refused by a rule.
fn refused(site: &mut Site, rule: u32, elements: &[Vec<i64>]) -> Option<Answer> {
    site.add_mixed(elements);
    site.refused(rule, "Mixed")
}

/// Elements, one of which is changed.
fn with_one(site: &mut Site, change: fn(&mut Site, &mut [i64])) -> Vec<Vec<i64>> {
    let mut elements = site.some_typed();
    let place = site.random.index(elements.len());
    change(site, &mut elements[place]);
    elements
}

/// Gives an element a type that is not in the list, of 4 bytes.
fn spoil_type(site: &mut Site, element: &mut [i64]) {
    element[0] = unlisted_type(site.random, 4, element[0]);
}

/// Gives an element a type that has more or fewer nodes than the element.
fn change_size(site: &mut Site, element: &mut [i64]) {
    element[0] = *site.random.pick(&types_of_other_size(element[0]));
}

/// Gives an element a number that is no node of the zone; answers its place in the element, counted from 0.
fn spoil_node(site: &mut Site, element: &mut [i64]) -> usize {
    let place = site.node_place(element);
    element[place] = site.bad_node();
    place
}

/// 38, a type that is not in the list.
pub fn type_not_in_list(site: &mut Site) -> Option<Answer> {
    let elements = with_one(site, spoil_type);
    refused(site, 38, &elements)
}

/// 38, a type that is not in the list, though its lower bytes may be.
pub fn type_beyond_4_bytes(site: &mut Site) -> Option<Answer> {
    let elements = site.some_typed();
    site.add_mixed(&elements);
    let array = site.child_of("Mixed", "ElementConnectivity")?;
    let mut numbers = site.image.nodes[array].numbers();
    let element = site.random.index(elements.len());
    let place = elements[..element].iter().map(Vec::len).sum::<usize>();
    let (stored, beyond) = (numbers[place], 1 << 32);
    let near = [stored + beyond, stored - beyond, stored + 2 * beyond, i64::MIN + stored];
    let choices = [near, [stored + beyond, 1 << 31, i64::MIN, -stored]].concat();
    numbers[place] = *site.random.pick(&choices);
    site.image.nodes[array].data_type = *b"I8";
    site.image.nodes[array].set_list(&numbers);
    site.refused(38, "Mixed")
}

/// 38, a type that has more or fewer nodes than the element.
pub fn type_of_other_size(site: &mut Site) -> Option<Answer> {
    let elements = with_one(site, change_size);
    refused(site, 38, &elements)
}

/// 38, the types of two elements of other sizes exchanged.
pub fn types_exchanged(site: &mut Site) -> Option<Answer> {
    let one = *site.random.pick(&FIXED_TYPES);
    let other = *site.random.pick(&types_of_other_size(one));
    let mut elements = site.typed(&[one, other, one]);
    (elements[0][0], elements[1][0]) = (other, one);
    refused(site, 38, &elements)
}

/// 38, an element that begins one entry earlier or later than its type.
pub fn start_moved(site: &mut Site) -> Option<Answer> {
    let elements = site.some_typed();
    site.add_mixed(&elements);
    let offsets = site.child_of("Mixed", "ElementStartOffset")?;
    shift_start(site.image, site.random, offsets).then(|| site.refused(38, "Mixed"))?
}

/// 38, an element that is a type and nothing else; half of them with a type that is not in the list.
pub fn type_alone(site: &mut Site) -> Option<Answer> {
    let mut elements = site.some_typed();
    let place = site.random.index(elements.len());
    elements[place].truncate(1);
    if site.random.index(2) == 0 {
        spoil_type(site, &mut elements[place]);
    }
    refused(site, 38, &elements)
}

/// 38, elements without types, their start offsets fitting: a first node is no type.
pub fn types_left_out(site: &mut Site) -> Option<Answer> {
    let mut elements = site.some_typed();
    for element in elements.iter_mut() {
        element.remove(0);
    }
    let place = site.random.index(elements.len());
    elements[place][0] = 1;
    refused(site, 38, &elements)
}

/// 38, faces said to be MIXED, one of which begins with node 1.
pub fn faces_called_mixed(site: &mut Site) -> Option<Answer> {
    let mut faces = site.faces(&[LEAST_FACE, LEAST_FACE + 1, LEAST_FACE]);
    let place = site.random.index(faces.len());
    faces[place][0] = 1;
    refused(site, 38, &faces)
}

/// 32, start offsets that count the nodes and not the types.
pub fn types_not_counted(site: &mut Site) -> Option<Answer> {
    let elements = site.some_typed();
    site.add_mixed(&elements);
    let offsets = site.child_of("Mixed", "ElementStartOffset")?;
    let sizes: Vec<i64> = elements.iter().map(|element| element.len() as i64 - 1).collect();
    let numbers = Node::start_offsets(4, &sizes).numbers();
    site.image.nodes[offsets].set_list(&numbers);
    site.refused(32, "Mixed")
}

/// 34, a node that is none, its entry counted with the types.
pub fn bad_node(site: &mut Site) -> Option<Answer> {
    let mut elements = site.some_typed();
    let element = site.random.index(elements.len());
    let place = spoil_node(site, &mut elements[element]);
    site.add_mixed(&elements);
    let before: usize = elements[..element].iter().map(Vec::len).sum();
    site.refused_at(34, "Mixed", (before + place) as u64 + 1)
}

/// 38 at the last element; the first has a node that is none.
pub fn bad_type_behind_bad_node(site: &mut Site) -> Option<Answer> {
    bad_node_and_type(site, false)
}

/// 38 at the first element; the last has a node that is none.
pub fn bad_node_behind_bad_type(site: &mut Site) -> Option<Answer> {
    bad_node_and_type(site, true)
}

/// 38 where a node is none at one end and a type is bad at the other: not in the list, or of another size.
fn bad_node_and_type(site: &mut Site, type_first: bool) -> Option<Answer> {
    let mut elements = site.some_typed();
    let last = elements.len() - 1;
    let (of_type, of_node) = if type_first { (0, last) } else { (last, 0) };
    spoil_node(site, &mut elements[of_node]);
    let spoil = *site.random.pick(&[spoil_type, change_size]);
    spoil(site, &mut elements[of_type]);
    refused(site, 38, &elements)
}

/// 29 to 32, now and then with a bad type and a node that is none.
pub fn bad_offsets(site: &mut Site) -> Option<Answer> {
    let mut elements = if site.random.one_in(2) { with_one(site, spoil_type) } else { site.some_typed() };
    if site.random.one_in(2) {
        spoil_node(site, &mut elements[0]);
    }
    site.add_mixed(&elements);
    let rule = site.break_offsets("Mixed")?;
    site.refused(rule, "Mixed")
}

/// 29, start offsets absent or not conforming.
pub fn no_start_offsets(site: &mut Site) -> Option<Answer> {
    let elements = site.some_typed();
    site.add_mixed(&elements);
    let offsets = site.child_of("Mixed", "ElementStartOffset")?;
    lose_offsets(site.image, site.random, offsets);
    site.refused(29, "Mixed")
}

/// 28 at the later of a MIXED section and one of faces or of MIXED elements.
pub fn ranges_that_meet(site: &mut Site) -> Option<Answer> {
    let elements = site.some_typed();
    let other = *site.random.pick(&["Faces", "More"]);
    if other == "Faces" {
        site.add_faces_of(&[LEAST_FACE; 2]);
    } else {
        site.add(other, MIXED, &elements);
    }
    site.add_mixed(&elements);
    let range = site.child_of("Mixed", "ElementRange")?;
    let back = 1 + site.random.between(0, 1);
    let numbers: Vec<i64> = site.image.nodes[range].numbers().iter().map(|number| number - back).collect();
    site.image.nodes[range].set_numbers(&numbers);
    let later = if site.section("Mixed")? > site.section(other)? { "Mixed" } else { other };
    site.refused(28, later)
}

/// Adds faces, MIXED elements and a cell, one of whose faces is a MIXED element, of either sign; answers its entry.
fn add_cell_of(site: &mut Site, elements: &[Vec<i64>]) -> u64 {
    site.add_faces_of(&[LEAST_FACE; 2]);
    let mut cell = site.cells(&[LEAST_CELL]).concat();
    let number = site.next_element + site.random.between(0, elements.len() as i64 - 1);
    site.add_mixed(elements);
    let place = site.random.index(cell.len());
    cell[place] = number * *site.random.pick(&[1, -1]);
    site.add_cells(&[cell]);
    place as u64 + 1
}

/// 37 at a cell with a MIXED element in place of a face.
pub fn mixed_as_face(site: &mut Site) -> Option<Answer> {
    let elements = if site.random.one_in(2) { site.some_typed() } else { site.typed(&[5, 7]) };
    let entry = add_cell_of(site, &elements);
    site.refused_at(37, "Cells", entry)
}

/// 37 at such a cell or 38 at a bad type.
pub fn bad_type_and_bad_cell(site: &mut Site) -> Option<Answer> {
    let elements = with_one(site, spoil_type);
    let entry = add_cell_of(site, &elements);
    site.refused_at_lower((38, "Mixed", 0), (37, "Cells", entry))
}

/// 33 at a face of two nodes or 38 at a bad type.
pub fn flat_face_and_bad_type(site: &mut Site) -> Option<Answer> {
    let elements = with_one(site, spoil_type);
    site.add_faces_of(&[LEAST_FACE, LEAST_FACE - 1]);
    site.add_mixed(&elements);
    site.refused_at_lower((33, "Faces", 0), (38, "Mixed", 0))
}
