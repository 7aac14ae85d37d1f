//! Cases that are refused by rule 39 for a number that is no parent.

use super::Answer;
use crate::damage::flat::LEAST_FACE;
use crate::damage::site::Site;
use crate::elements::NFACE_N;
use crate::sizes::MAX_NUMBER;

/// 0 as a first parent, once with a cell as the second.
pub fn first_is_zero(site: &mut Site) -> Option<Answer> {
    site.add_agreeing_mesh()?;
    if site.random.one_in(2) {
        let cell = site.element_of("Cells")?;
        site.put_parent("Faces", 1, cell)?;
    }
    site.put_parent("Faces", 0, 0)?;
    site.refused(39, "Faces")
}

/// A face.
pub fn face_as_parent(site: &mut Site) -> Option<Answer> {
    site.add_agreeing_mesh()?;
    let number = site.element_of("Faces")?;
    site.spoil_parents("Faces", number)
}

/// An element of a fixed type.
pub fn fixed_element(site: &mut Site) -> Option<Answer> {
    site.add_agreeing_mesh()?;
    let (fixed, elements) = site.some_fixed();
    site.add("Fixed", fixed, &elements);
    let number = site.element_of("Fixed")?;
    site.spoil_parents("Faces", number)
}

/// An element of a MIXED section, a tetrahedron or another.
pub fn mixed_element(site: &mut Site) -> Option<Answer> {
    site.add_agreeing_mesh()?;
    let elements = site.typed(&[10, 12]);
    site.add_mixed(&elements);
    let number = site.element_of("Mixed")?;
    site.spoil_parents("Faces", number)
}

/// A number beside the ranges of the zone.
pub fn no_element(site: &mut Site) -> Option<Answer> {
    let first = site.next_element;
    site.add_agreeing_mesh()?;
    let next = site.next_element;
    let below = if first > 1 { first - 1 } else { next };
    let number = *site.random.pick(&[below, next, next + 7]);
    site.spoil_parents("Faces", number)
}

/// A cell with a minus sign.
pub fn negative(site: &mut Site) -> Option<Answer> {
    site.add_agreeing_mesh()?;
    let cell = site.element_of("Cells")?;
    let number = *site.random.pick(&[-cell, -cell, -1]);
    site.spoil_parents("Faces", number)
}

/// The least number of 4 bytes.
pub fn least_of_4_bytes(site: &mut Site) -> Option<Answer> {
    site.add_agreeing_mesh()?;
    site.spoil_parents("Faces", i64::from(i32::MIN))
}

/// A number that 4 bytes do not hold, often a cell or 0 in its lower ones.
pub fn beyond_4_bytes(site: &mut Site) -> Option<Answer> {
    site.add_agreeing_mesh()?;
    let (cell, whole) = (site.element_of("Cells")?, 1 << 32);
    let numbers =
        [whole + cell, cell - whole, whole, MAX_NUMBER + 1, i64::MIN, i64::MIN + cell, i64::MAX, i64::MAX - cell];
    let number = *site.random.pick(&numbers);
    site.spoil_parents("Faces", number)
}

/// A cell of another zone of the base.
pub fn cell_of_other_zone(site: &mut Site) -> Option<Answer> {
    site.add_agreeing_mesh()?;
    let mut other = site.beside(site.next_element);
    other.add_faces_of(&[LEAST_FACE; 2]);
    let cells = other.cells(&[4]);
    other.add("Cells", NFACE_N, &cells);
    let number = other.element_of("Cells")?;
    site.spoil_parents("Faces", number)
}

/// Any numbers, in a zone that has no cells.
pub fn without_cells(site: &mut Site) -> Option<Answer> {
    let sizes = site.sizes(LEAST_FACE);
    site.add_faces_of(&sizes);
    let number = *site.random.pick(&[0, 1, site.next_element]);
    site.add_pairs("Faces", |_, _| [number, 0])?;
    site.refused(39, "Faces")
}

/// Several numbers that are none.
pub fn several_bad_numbers(site: &mut Site) -> Option<Answer> {
    site.add_agreeing_mesh()?;
    for _ in 0..site.random.between(2, 5) {
        let numbers = [-1, i64::from(i32::MIN), i64::MAX, site.next_element, site.element_of("Faces")?];
        let number = *site.random.pick(&numbers);
        site.spoil_parents("Faces", number)?;
    }
    site.refused(39, "Faces")
}
