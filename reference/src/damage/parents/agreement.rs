//! Cases that are accepted: parents that agree with the cells, and lawful ones that do not.

use super::Answer;
use crate::build::Node;
use crate::damage::site::Site;
use crate::elements::NGON_N;
use crate::sizes::MAX_NUMBER;

/// Parents that agree.
pub fn agreeing(site: &mut Site) -> Option<Answer> {
    site.add_agreeing_mesh()?;
    Some(Answer::Accepted)
}

/// Parents that agree, in two sections, of cells in two sections.
pub fn agreeing_in_sections(site: &mut Site) -> Option<Answer> {
    site.add_used_mesh(&["Faces", "More"], &["Cells", "Others"]);
    site.add_agreeing("Faces")?;
    site.add_agreeing("More")?;
    Some(Answer::Accepted)
}

/// Parents that agree, in one of two sections.
pub fn section_without(site: &mut Site) -> Option<Answer> {
    site.add_used_mesh(&["Faces", "More"], &["Cells"]);
    let name = *site.random.pick(&["Faces", "More"]);
    site.add_agreeing(name)?;
    Some(Answer::Accepted)
}

/// Parents that agree, beside a section without them whose face no cell uses.
pub fn unused_without_parents(site: &mut Site) -> Option<Answer> {
    site.add_agreeing_mesh()?;
    let faces = site.few_faces();
    site.add("More", NGON_N, &faces);
    Some(Answer::Accepted)
}

/// Parents of which one section's agree and the other's do not.
pub fn one_section_disagrees(site: &mut Site) -> Option<Answer> {
    site.add_used_mesh(&["Faces", "More"], &["Cells", "Others"]);
    site.add_agreeing("Faces")?;
    let uses = site.cell_uses();
    site.add_pairs("More", |site, face| {
        let pair = uses.agreeing(site.random, face);
        uses.other_pair(site.random, pair)
    })?;
    Some(Answer::Accepted)
}

/// Any cells as parents, in two sections.
pub fn any_cells(site: &mut Site) -> Option<Answer> {
    site.add_used_mesh(&["Faces", "More"], &["Cells", "Others"]);
    let uses = site.cell_uses();
    for name in ["Faces", "More"] {
        site.add_pairs(name, |site, _| {
            let second = uses.any_cell(site.random);
            [uses.any_cell(site.random), *site.random.pick(&[0, second])]
        })?;
    }
    Some(Answer::Accepted)
}

/// A face that one cell uses from both sides, which both of its parents name.
pub fn cell_on_both_sides(site: &mut Site) -> Option<Answer> {
    site.add_agreeing_mesh()?;
    let uses = site.cell_uses();
    let both = |&face: &i64| matches!(*uses.of_face(face), [one, other] if one == other);
    site.faces_of("Faces")?.iter().any(both).then_some(Answer::Accepted)
}

/// Such a face with the cell as its first parent alone.
pub fn one_side_left_out(site: &mut Site) -> Option<Answer> {
    site.add_disagreeing_mesh(|_, _, cells| match *cells {
        [one, other] if one == other => Some([one, 0]),
        _ => None,
    })?;
    Some(Answer::Accepted)
}

/// A face that is used once, with a second parent: the cell again, or another.
pub fn second_too_many(site: &mut Site) -> Option<Answer> {
    site.add_disagreeing_mesh(|site, uses, cells| match *cells {
        [cell] => {
            let second = uses.any_cell(site.random);
            Some([cell, *site.random.pick(&[cell, second])])
        }
        _ => None,
    })?;
    Some(Answer::Accepted)
}

/// A face that is used twice, with one of its cells as the first parent alone.
pub fn second_left_out(site: &mut Site) -> Option<Answer> {
    site.add_disagreeing_mesh(|site, _, cells| match *cells {
        [one, other] => Some([*site.random.pick(&[one, other]), 0]),
        _ => None,
    })?;
    Some(Answer::Accepted)
}

/// A face that is used twice, with another cell in place of one of the two.
pub fn one_of_two_is_other(site: &mut Site) -> Option<Answer> {
    site.add_disagreeing_mesh(|site, uses, cells| match *cells {
        [one, other] => {
            let wrong = uses.other_cell(site.random, other)?;
            Some(*site.random.pick(&[[one, wrong], [wrong, one]]))
        }
        _ => None,
    })?;
    Some(Answer::Accepted)
}

/// A face that two cells use, with one of them in both columns.
pub fn one_cell_twice(site: &mut Site) -> Option<Answer> {
    site.add_disagreeing_mesh(|site, _, cells| match *cells {
        [one, other] if one != other => Some([*site.random.pick(&[one, other]); 2]),
        _ => None,
    })?;
    Some(Answer::Accepted)
}

/// A face that is used once, with another cell as its parent.
pub fn other_cell_alone(site: &mut Site) -> Option<Answer> {
    site.add_disagreeing_mesh(|site, uses, cells| match *cells {
        [cell] => Some([uses.other_cell(site.random, cell)?, 0]),
        _ => None,
    })?;
    Some(Answer::Accepted)
}

/// Parents of a face that no cell uses.
pub fn face_of_no_cell(site: &mut Site) -> Option<Answer> {
    let faces = site.few_faces();
    site.add("Faces", NGON_N, &faces);
    site.add_used_mesh(&["More"], &["Cells"]);
    site.add_agreeing("Faces")?;
    Some(Answer::Accepted)
}

/// Agreeing parents beside a face that is used twice with one sign: validation accepts that.
pub fn repeat(site: &mut Site) -> Option<Answer> {
    site.add_agreeing_mesh()?;
    let array = site.child_of("Cells", "ElementConnectivity")?;
    let references = site.image.nodes[array].numbers();
    let again = *site.random.pick(&references);
    site.put("Cells", &[again])?;
    Some(Answer::Accepted)
}

/// Two zones whose faces and cells have the same numbers, both with parents that agree.
pub fn same_numbers_in_two_zones(site: &mut Site) -> Option<Answer> {
    let first = site.next_element;
    site.add_agreeing_mesh()?;
    site.beside(first).add_agreeing_mesh()?;
    Some(Answer::Accepted)
}

/// Cells up to the greatest number of all.
pub fn greatest_cells(site: &mut Site) -> Option<Answer> {
    site.next_element = MAX_NUMBER - 40;
    site.add_plain_mesh();
    let [first, last] = site.range("Cells")?;
    let range = site.child_of("Cells", "ElementRange")?;
    site.image.nodes[range].set_numbers(&[MAX_NUMBER - (last - first), MAX_NUMBER]);
    site.add_agreeing("Faces")?;
    Some(Answer::Accepted)
}

/// A mesh without parents.
pub fn no_parents(site: &mut Site) -> Option<Answer> {
    site.add_plain_mesh();
    Some(Answer::Accepted)
}

/// The name of parents under another label.
pub fn other_label(site: &mut Site) -> Option<Answer> {
    site.add_plain_mesh();
    let mut reals = Node::new("ParentElements", "ParentElements_t", "R8", &[], Vec::new());
    reals.reshape(&[3]);
    let nodes = [
        Node::empty("ParentElements", "UserDefinedData_t"),
        Node::text("ParentElements", "Descriptor_t", "none"),
        Node::empty("ParentElements", "DataArray"),
        reals,
    ];
    let node = site.random.pick(&nodes).clone();
    site.add_to("Faces", node)?;
    Some(Answer::Accepted)
}
