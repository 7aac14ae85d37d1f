//! Cases of arrays that are no parents: in sections of other types, and under other names.

use super::Answer;
use crate::build::Node;
use crate::damage::site::Site;
use crate::lawful::STORING_TYPES;

/// An array of this name with any type and shape and with any numbers.
fn any_array(site: &mut Site, name: &str) -> Node {
    let data_type = *site.random.pick(&STORING_TYPES);
    let mut node = Node::new(name, "DataArray_t", data_type, &[], Vec::new());
    let count = 1 + site.random.below(3);
    let shapes: [&[u64]; 4] = [&[count], &[count, 2], &[2, count], &[1, count, 1]];
    let shape = *site.random.pick(&shapes);
    node.reshape(shape);
    node.data.iter_mut().for_each(|byte| *byte = site.random.bits() as u8);
    node
}

/// An array named as parents in a section of cells.
pub fn in_cells(site: &mut Site) -> Option<Answer> {
    if site.random.one_in(2) {
        site.add_agreeing_mesh()?;
    } else {
        site.add_plain_mesh();
    }
    let node = any_array(site, "ParentElements");
    site.add_to("Cells", node)?;
    Some(Answer::Accepted)
}

/// An array named as parents in a section of a fixed type or of type 20.
pub fn in_other_section(site: &mut Site) -> Option<Answer> {
    site.add_plain_mesh();
    let name = *site.random.pick(&["Fixed", "Mixed"]);
    if name == "Fixed" {
        let (fixed, elements) = site.some_fixed();
        site.add(name, fixed, &elements);
    } else {
        let elements = site.typed(&[5, 7]);
        site.add_mixed(&elements);
    }
    let node = any_array(site, "ParentElements");
    site.add_to(name, node)?;
    Some(Answer::Accepted)
}

/// 24 at an array of cells that is named as parents and empty.
pub fn empty_in_cells(site: &mut Site) -> Option<Answer> {
    site.add_plain_mesh();
    site.add_to("Cells", Node::empty("ParentElements", "DataArray_t"))?;
    Some(Answer::at_node(24, site.child_of("Cells", "ParentElements")?))
}

/// An array of faces whose name is nearly that of parents.
pub fn nearly_named(site: &mut Site) -> Option<Answer> {
    site.add_plain_mesh();
    let name = *site.random.pick(&["parentElements", "ParentElement", "ParentElements2", "Parent Elements", "Parents"]);
    let node = any_array(site, name);
    site.add_to("Faces", node)?;
    Some(Answer::Accepted)
}
