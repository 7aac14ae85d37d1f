//! Cases that are refused by rule 39 for the type or the shape of the parents, and cases of several rules.

use super::Answer;
use crate::build::Node;
use crate::damage::parent_arrays::{spoil_shape, spoil_type};
use crate::damage::site::Site;
use crate::elements::NFACE_N;
use crate::random::Random;

/// 39, parents of type MT; their own 24 would come later.
pub fn empty(site: &mut Site) -> Option<Answer> {
    site.add_plain_mesh();
    site.add_to("Faces", Node::empty("ParentElements", "DataArray_t"))?;
    site.refused(39, "Faces")
}

/// 39, agreeing parents to which a change is made.
fn changed(site: &mut Site, change: impl Fn(&mut Node, &mut Random)) -> Option<Answer> {
    site.add_agreeing_mesh()?;
    let array = site.child_of("Faces", "ParentElements")?;
    change(&mut site.image.nodes[array], site.random);
    site.refused(39, "Faces")
}

/// 39, parents that are not I4 or I8.
pub fn other_type(site: &mut Site) -> Option<Answer> {
    changed(site, spoil_type)
}

/// 39, parents with the dimensions [2, n], the pair of each face together; not of two faces, where both are alike.
pub fn turned(site: &mut Site) -> Option<Answer> {
    let refused = changed(site, |array, _| {
        let (n, numbers) = (array.dimensions[0], array.numbers());
        let count = n as usize;
        let pairs: Vec<i64> = (0..count).flat_map(|k| [numbers[k], numbers[count + k]]).collect();
        array.set_numbers(&pairs);
        array.dimensions = vec![2, n];
    });
    let faces = site.faces_of("Faces")?.len();
    refused.filter(|_| faces != 2)
}

/// 39, parents of another shape.
pub fn other_shape(site: &mut Site) -> Option<Answer> {
    changed(site, spoil_shape)
}

/// 34 with its entry, a node that is none in faces whose parents are none either.
pub fn bad_node_before(site: &mut Site) -> Option<Answer> {
    site.add_agreeing_mesh()?;
    site.spoil_parents("Faces", -1)?;
    let number = site.bad_node();
    site.spoil("Faces", &[(number, 34)])
}

/// 29 to 32 at faces whose parents are none either.
pub fn bad_offsets_before(site: &mut Site) -> Option<Answer> {
    site.add_agreeing_mesh()?;
    site.spoil_parents("Faces", -1)?;
    let rule = site.break_offsets("Faces")?;
    site.refused(rule, "Faces")
}

/// Parents that are none and a cell with a face that is none: the lower section decides.
pub fn bad_parents_and_bad_cell(site: &mut Site) -> Option<Answer> {
    site.add_agreeing_mesh()?;
    site.spoil_parents("Faces", -1)?;
    let Answer::Refused(cell) = site.spoil("Cells", &[(0, 35)])? else {
        return None;
    };
    site.refused_at_lower((39, "Faces", 0), (cell.rule, "Cells", cell.entry))
}

/// Parents that are none in two sections: the lower one decides.
pub fn two_bad_arrays(site: &mut Site) -> Option<Answer> {
    site.add_used_mesh(&["Faces", "More"], &["Cells"]);
    for name in ["Faces", "More"] {
        site.add_agreeing(name)?;
        site.put_parent(name, 0, 0)?;
    }
    site.refused_at_lower((39, "Faces", 0), (39, "More", 0))
}

/// Adds agreeing parents, and behind the faces a second section of cells, of one cell, which a parent names.
fn add_odd_cell(site: &mut Site) -> Option<()> {
    site.add_agreeing_mesh()?;
    let faces = site.faces_of("Faces")?;
    let cell: Vec<i64> = (0..4).map(|_| *site.random.pick(&faces)).collect();
    site.add_behind("Faces", "Odd", NFACE_N, &[cell])?;
    let (number, column) = (site.element_of("Odd")?, site.random.index(2));
    site.put_parent("Faces", column, number)
}

/// 39, a cell of a section behind the faces whose own data or range do not conform.
pub fn uncounted_cells(site: &mut Site) -> Option<Answer> {
    add_odd_cell(site)?;
    let (own, range) = (site.section("Odd")?, site.child_of("Odd", "ElementRange")?);
    match site.random.below(5) {
        0 => site.image.nodes[own].set_numbers(&[NFACE_N, -1]),
        1 => site.image.nodes[own].data_type = *b"U4",
        2 => site.image.nodes[range].dimensions.push(1),
        3 => {
            let [first, last] = site.range("Odd")?;
            site.image.nodes[range].set_numbers(&[last + 1, first]);
        }
        _ => site.image.remove(range),
    }
    site.refused(39, "Faces")
}

/// 23, 29 to 32 or 35 at a section of cells behind the faces: its cell is a parent all the same.
pub fn cells_refused_later(site: &mut Site) -> Option<Answer> {
    add_odd_cell(site)?;
    match site.random.below(3) {
        0 => {
            let connectivity = site.child_of("Odd", "ElementConnectivity")?;
            site.image.remove(connectivity);
            site.refused(23, "Odd")
        }
        1 => {
            let rule = site.break_offsets("Odd")?;
            site.refused(rule, "Odd")
        }
        _ => site.spoil("Odd", &[(0, 35)]),
    }
}

/// 28 at a section of cells behind the faces that has the number of one of them: the parent of that number has passed.
pub fn cell_and_face(site: &mut Site) -> Option<Answer> {
    add_odd_cell(site)?;
    let (number, column) = (site.element_of("Faces")?, site.random.index(2));
    let array = site.child_of("Faces", "ParentElements")?;
    let odd = site.element_of("Odd")?;
    let numbers: Vec<i64> = site.image.nodes[array].numbers();
    let renamed: Vec<i64> = numbers.into_iter().map(|n| if n == odd { number } else { n }).collect();
    site.image.nodes[array].set_numbers(&renamed);
    site.renumber("Odd", number)?;
    site.put_parent("Faces", column, number)?;
    site.refused(28, "Odd")
}
