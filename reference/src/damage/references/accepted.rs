//! Cases that are accepted, and cases whose references are lawful while a later node is refused.

use super::Answer;
use crate::damage::flat::{LEAST_CELL, LEAST_FACE};
use crate::damage::site::Site;
use crate::elements::{NFACE_N, NGON_N};
use crate::sizes::MAX_NUMBER;

/// Cells of the faces of two sections, one of which comes behind them.
pub fn faces_behind(site: &mut Site) -> Option<Answer> {
    site.add_some_mesh();
    let faces = site.few_faces();
    site.add_behind("Cells", "More", NGON_N, &faces)?;
    let reference = site.reference_to("More")?;
    site.put("Cells", &[reference])?;
    Some(Answer::Accepted)
}

/// Faces up to the greatest number of all, which a cell names, with either sign.
pub fn greatest_face(site: &mut Site) -> Option<Answer> {
    let (faces, cells) = (site.sizes(LEAST_FACE), site.sizes(LEAST_CELL));
    site.next_element = MAX_NUMBER + 1 - faces.len() as i64;
    site.add_faces_of(&faces);
    site.next_element = 1 + site.random.between(0, 9);
    let cells = site.cells(&cells);
    site.add_cells(&cells);
    let number = site.signed(MAX_NUMBER);
    site.put("Cells", &[number])?;
    Some(Answer::Accepted)
}

/// Faces and cells beside elements of other types.
pub fn beside_other_sections(site: &mut Site) -> Option<Answer> {
    site.add_some_mesh();
    let (fixed, elements) = site.some_fixed();
    site.add("Fixed", fixed, &elements);
    let cells = site.cells(&[LEAST_CELL]);
    site.add("More", NFACE_N, &cells);
    Some(Answer::Accepted)
}

/// Two zones whose faces and cells have the same numbers.
pub fn same_numbers_in_two_zones(site: &mut Site) -> Option<Answer> {
    let first = site.next_element;
    site.add_some_mesh();
    site.beside(first).add_some_mesh();
    Some(Answer::Accepted)
}

/// 28 at the later of faces and a section of another type that has the number of one of them: the cell that names it has
/// passed.
pub fn face_in_two_ranges(site: &mut Site) -> Option<Answer> {
    site.add_some_mesh();
    site.add_behind("Cells", "Point", 2, &[vec![1]])?;
    let number = site.element_of("Faces")?;
    site.renumber("Point", number)?;
    let number = site.signed(number);
    site.put("Cells", &[number])?;
    let later = if site.section("Faces")? > site.section("Point")? { "Faces" } else { "Point" };
    site.refused(28, later)
}

/// 28 at a face behind the cells that has the number of one of these: the cell that names it has passed.
pub fn face_in_own_range(site: &mut Site) -> Option<Answer> {
    site.add_some_mesh();
    let face = site.faces(&[LEAST_FACE]);
    site.add_behind("Cells", "More", NGON_N, &face)?;
    let number = site.element_of("Cells")?;
    site.renumber("More", number)?;
    let number = site.signed(number);
    site.put("Cells", &[number])?;
    site.refused(28, "More")
}

/// 23, 29 to 32 or 34 at faces behind the cells, which have passed.
pub fn faces_refused_later(site: &mut Site) -> Option<Answer> {
    site.add_some_mesh();
    let faces = site.few_faces();
    site.add_behind("Cells", "More", NGON_N, &faces)?;
    let reference = site.reference_to("More")?;
    site.put("Cells", &[reference])?;
    match site.random.below(3) {
        0 => {
            let connectivity = site.child_of("More", "ElementConnectivity")?;
            site.image.remove(connectivity);
            site.refused(23, "More")
        }
        1 => {
            let rule = site.break_offsets("More")?;
            site.refused(rule, "More")
        }
        _ => {
            let number = site.bad_node();
            site.spoil("More", &[(number, 34)])
        }
    }
}
