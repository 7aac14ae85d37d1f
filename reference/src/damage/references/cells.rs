//! Cases of a cell with a face that is none: rules 35, 36 and 37.

use super::Answer;
use crate::build::{Image, Node};
use crate::damage::flat::{LEAST_CELL, LEAST_FACE};
use crate::damage::site::Site;
use crate::elements::{MIXED, NFACE_N, NGON_N};
use crate::sizes::MAX_NUMBER;
use crate::text::padded;

/// 35, zero.
pub fn zero(site: &mut Site) -> Option<Answer> {
    site.add_some_mesh();
    site.spoil("Cells", &[(0, 35)])
}

/// A reference from the cells to an element of a section, which breaks a rule.
fn refused_reference(site: &mut Site, name: &str, rule: u32) -> Option<Answer> {
    let number = site.reference_to(name)?;
    site.spoil("Cells", &[(number, rule)])
}

/// 37, a cell of the section itself.
pub fn itself(site: &mut Site) -> Option<Answer> {
    site.add_some_mesh();
    refused_reference(site, "Cells", 37)
}

/// 37, a cell of another section.
pub fn other_cells(site: &mut Site) -> Option<Answer> {
    site.add_some_mesh();
    let cells = site.cells(&[LEAST_CELL]);
    site.add("More", NFACE_N, &cells);
    refused_reference(site, "More", 37)
}

/// 37, an element of a fixed type.
pub fn fixed_type(site: &mut Site) -> Option<Answer> {
    site.add_some_mesh();
    let (fixed, elements) = site.some_fixed();
    site.add("Fixed", fixed, &elements);
    refused_reference(site, "Fixed", 37)
}

/// 37, an element of a MIXED section, often a triangle or a quadrilateral.
pub fn mixed_section(site: &mut Site) -> Option<Answer> {
    site.add_some_mesh();
    let elements = if site.random.one_in(2) { site.some_typed() } else { site.typed(&[5, 7]) };
    site.add_mixed(&elements);
    refused_reference(site, "Mixed", 37)
}

/// Adds a section behind the cells, of one or two elements; answers a reference to one of them.
fn add_odd(site: &mut Site, element_type: i64) -> Option<i64> {
    let elements = site.few_faces();
    site.add_behind("Cells", "Odd", element_type, &elements)?;
    site.reference_to("Odd")
}

/// 37, an element of a section behind the cells whose type is not taken.
pub fn untaken_type(site: &mut Site) -> Option<Answer> {
    site.add_some_mesh();
    let types = [0, 1, 24, 25, 56, -1, -22, 278, 65_558, MAX_NUMBER, i64::from(i32::MIN)];
    let untaken = *site.random.pick(&types);
    let number = add_odd(site, untaken)?;
    site.spoil("Cells", &[(number, 37)])
}

/// 37, an element of a section behind the cells that has no connectivity, or one that does not conform.
pub fn no_connectivity(site: &mut Site) -> Option<Answer> {
    site.add_some_mesh();
    let element_type = *site.random.pick(&[5, MIXED, NFACE_N]);
    let number = add_odd(site, element_type)?;
    let connectivity = site.child_of("Odd", "ElementConnectivity")?;
    if site.random.one_in(2) {
        site.image.remove(connectivity);
    } else {
        site.image.nodes[connectivity].dimensions.push(1);
    }
    site.spoil("Cells", &[(number, 37)])
}

/// The types of sections that do not count, most often that of faces.
const UNCOUNTED: [i64; 6] = [NGON_N, NGON_N, NGON_N, NFACE_N, 5, 24];

/// 36, an element of a section behind the cells whose own data do not conform.
pub fn bad_own_data(site: &mut Site) -> Option<Answer> {
    site.add_some_mesh();
    let element_type = *site.random.pick(&UNCOUNTED);
    let number = add_odd(site, element_type)?;
    let (node, kind) = (site.section("Odd")?, site.random.below(5));
    let own = &mut site.image.nodes[node];
    match kind {
        0 => own.set_numbers(&[element_type, -1]),
        1 => own.set_numbers(&[element_type, i64::from(i32::MIN)]),
        2 => own.data_type = *b"U4",
        3 => own.dimensions.push(1),
        _ => {
            own.data_type = *b"I8";
            own.set_numbers(&[element_type, 0]);
        }
    }
    site.spoil("Cells", &[(number, 36)])
}

/// 36, an element of a section behind the cells whose ElementRange is missing or does not conform.
pub fn bad_range(site: &mut Site) -> Option<Answer> {
    site.add_some_mesh();
    let element_type = *site.random.pick(&UNCOUNTED);
    let number = add_odd(site, element_type)?;
    let (node, kind) = (site.child_of("Odd", "ElementRange")?, site.random.below(8));
    spoil_range(site.image, node, kind);
    site.spoil("Cells", &[(number, 36)])
}

/// Lets a range not conform, in one of eight ways.
fn spoil_range(image: &mut Image, node: usize, kind: u64) {
    let range = &mut image.nodes[node];
    let numbers = range.numbers();
    let (first, last) = (numbers[0], numbers[1]);
    match kind {
        0 => image.remove(node),
        1 => range.name = padded(b"elementRange"),
        2 => range.data_type = if range.width() == 4 { *b"U4" } else { *b"U8" },
        3 => range.dimensions.push(1),
        4 => range.set_numbers(&[0, last]),
        5 => range.set_numbers(&[-first, last]),
        6 => range.set_numbers(&[last + 1, first]),
        _ => *range = Node { parent: range.parent, ..wide_range(first) },
    }
}

/// A range that ends behind the greatest number.
fn wide_range(first: i64) -> Node {
    Node::integers("ElementRange", "IndexRange_t", 8, &[2], &[first, MAX_NUMBER + 1])
}

/// 36, a face of another zone of the base.
pub fn other_zone(site: &mut Site) -> Option<Answer> {
    site.add_some_mesh();
    let next = site.next_element + site.random.between(0, 2);
    let mut other = site.beside(next);
    other.add_faces_of(&[LEAST_FACE; 2]);
    let number = other.reference_to("Faces")?;
    site.spoil("Cells", &[(number, 36)])
}

/// 37, an element of a fixed type whose number is that of a face in another zone.
pub fn face_in_other_zone_only(site: &mut Site) -> Option<Answer> {
    site.add_some_mesh();
    let nodes = site.faces(&[1, 1]);
    site.add("Points", 2, &nodes);
    let [first, _] = site.range("Points")?;
    site.beside(first).add_faces_of(&[LEAST_FACE; 2]);
    refused_reference(site, "Points", 37)
}

/// 37, an element of two sections that meet, the later one behind the cells; neither is one of faces.
pub fn in_two_ranges_and_no_face(site: &mut Site) -> Option<Answer> {
    site.add_some_mesh();
    let (fixed, elements) = site.some_fixed();
    site.add("Fixed", fixed, &elements);
    site.add_behind("Cells", "Point", 2, &[vec![1]])?;
    let other = *site.random.pick(&["Fixed", "Fixed", "Cells"]);
    let number = site.element_of(other)?;
    site.renumber("Point", number)?;
    let number = site.signed(number);
    site.spoil("Cells", &[(number, 37)])
}

/// 36, a number beside the ranges of the zone or between them.
pub fn no_element(site: &mut Site) -> Option<Answer> {
    let (faces, cells, first) = (site.sizes(LEAST_FACE), site.sizes(LEAST_CELL), site.next_element);
    site.add_faces_of(&faces);
    let between = site.next_element;
    site.next_element += site.random.between(1, 3);
    let cells = site.cells(&cells);
    site.add_cells(&cells);
    let before = if first > 1 { first - 1 } else { between };
    let number = *site.random.pick(&[before, between, site.next_element, site.next_element + 7]);
    let number = site.signed(number);
    site.spoil("Cells", &[(number, 36)])
}

/// 36, a number that no section of the zone has, near a face in its lower bits.
fn beyond(site: &mut Site, number: fn(i64) -> Vec<i64>) -> Option<Answer> {
    site.add_some_mesh();
    let face = site.element_of("Faces")?;
    let number = *site.random.pick(&number(face));
    site.spoil("Cells", &[(number, 36)])
}

/// 36, the least number of 4 bytes.
pub fn least_of_4_bytes(site: &mut Site) -> Option<Answer> {
    beyond(site, |_| vec![i64::from(i32::MIN)])
}

/// 36, the least number of 8 bytes, or one that is near it.
pub fn least_of_8_bytes(site: &mut Site) -> Option<Answer> {
    beyond(site, |face| vec![i64::MIN, i64::MIN, i64::MIN + face])
}

/// 36, a number between the greatest of 4 bytes and the greatest of 8.
pub fn beyond_4_bytes(site: &mut Site) -> Option<Answer> {
    beyond(site, |face| {
        let (half, whole) = (1 << 31, 1 << 32);
        vec![half, half + face, whole + face, whole + face, -whole - face, face - whole, 2 * whole + face]
    })
}

/// 36, the greatest number of 8 bytes, with either sign.
pub fn greatest_of_8_bytes(site: &mut Site) -> Option<Answer> {
    beyond(site, |face| vec![i64::MAX, -i64::MAX, i64::MAX - face])
}
