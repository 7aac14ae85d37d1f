//! Cases that are refused by rule 34: nodes that are none.

use super::Answer;
use crate::damage::flat::LEAST_FACE;
use crate::damage::site::Site;

/// A node that is none, in faces.
pub fn bad_node_in_faces(site: &mut Site) -> Option<Answer> {
    let sizes = site.sizes(LEAST_FACE);
    site.add_faces_of(&sizes);
    let number = site.bad_node();
    site.spoil("Faces", &[(number, 34)])
}

/// The same in elements of a fixed type.
pub fn bad_node_in_fixed_type(site: &mut Site) -> Option<Answer> {
    let (fixed, elements) = site.some_fixed();
    site.add("Fixed", fixed, &elements);
    let number = site.bad_node();
    site.spoil("Fixed", &[(number, 34)])
}

/// The same in a MIXED section: the place counts the types.
pub fn bad_node_in_mixed(site: &mut Site) -> Option<Answer> {
    let elements = site.some_typed();
    site.add_mixed(&elements);
    let number = site.bad_node();
    site.spoil("Mixed", &[(number, 34)])
}

/// Two nodes that are none, in a section of any of the three kinds.
pub fn two_bad_nodes(site: &mut Site) -> Option<Answer> {
    let name = *site.random.pick(&["Faces", "Fixed", "Mixed"]);
    match name {
        "Faces" => site.add_faces_of(&[LEAST_FACE, LEAST_FACE + 1]),
        "Fixed" => {
            let elements = site.faces(&[4, 4]);
            site.add(name, 7, &elements);
        }
        _ => {
            let elements = site.some_typed();
            site.add_mixed(&elements);
        }
    }
    let bad = [(); 2].map(|()| (site.bad_node(), 34));
    site.spoil(name, &bad)
}

/// A number that is a node of the zone in its lower bytes only.
pub fn bad_node_beyond_4_bytes(site: &mut Site) -> Option<Answer> {
    let (fixed, elements) = site.some_fixed();
    let name = *site.random.pick(&["Faces", "Fixed"]);
    match name {
        "Faces" => site.add_faces_of(&[LEAST_FACE; 2]),
        _ => site.add(name, fixed, &elements),
    }
    let near = site.random.between(1, site.vertices);
    let numbers = [(1 << 32) + near, near - (1 << 32), 1 << 31, i64::MIN, i64::MIN + near, i64::MAX];
    let number = *site.random.pick(&numbers);
    site.spoil(name, &[(number, 34)])
}
