//! Cases that are accepted: types in runs, in turn and of every kind, alone and beside other sections.

use super::Answer;
use crate::damage::flat::{LEAST_CELL, LEAST_FACE};
use crate::damage::site::Site;
use crate::elements::{nodes_of, MIXED, NGON_N};
use crate::lawful::{types_of_same_size, FIXED_TYPES};
use crate::mesh::{HEXA_8, PENTA_6};

/// Adds elements of these types.
fn accepted(site: &mut Site, types: &[i64]) -> Option<Answer> {
    let elements = site.typed(types);
    site.add_mixed(&elements);
    Some(Answer::Accepted)
}

/// Hexahedra between two layers of prisms.
pub fn hexahedra_between_prisms(site: &mut Site) -> Option<Answer> {
    let [below, core, above] = [(); 3].map(|()| 1 + site.random.index(2));
    accepted(site, &[vec![PENTA_6; below], vec![HEXA_8; core], vec![PENTA_6; above]].concat())
}

/// Two types in turn.
pub fn two_types_in_turn(site: &mut Site) -> Option<Answer> {
    let two = [(); 2].map(|()| *site.random.pick(&FIXED_TYPES));
    let count = 3 + site.random.index(4);
    accepted(site, &two.into_iter().cycle().take(count).collect::<Vec<_>>())
}

/// Up to seven types, all different.
pub fn many_types(site: &mut Site) -> Option<Answer> {
    let mut types = FIXED_TYPES;
    site.random.shuffle(&mut types);
    let count = 4 + site.random.index(4);
    accepted(site, &types[..count])
}

/// Types that have as many nodes as one another: 4 and 5, 6 and 14, 7 and 10, 8 and 17.
pub fn as_many_nodes(site: &mut Site) -> Option<Answer> {
    let same = types_of_same_size(*site.random.pick(&[4, 14, 10, HEXA_8]));
    let types: Vec<i64> = (0..4).map(|_| *site.random.pick(&same)).collect();
    accepted(site, &types)
}

/// A zone of one vertex: every type is greater than VertexSize.
pub fn one_vertex(site: &mut Site) -> Option<Answer> {
    site.set_vertices(1);
    let types = site.types();
    accepted(site, &types)
}

/// Nodes that could be types, those of other sections among them.
pub fn nodes_like_types(site: &mut Site) -> Option<Answer> {
    site.set_vertices(24);
    let mut elements = site.some_typed();
    for node in elements.iter_mut().flat_map(|element| &mut element[1..]) {
        *node = site.random.between(2, 24);
    }
    site.add_mixed(&elements);
    Some(Answer::Accepted)
}

/// Elements of one and two nodes, which no rule calls flat.
pub fn small_elements(site: &mut Site) -> Option<Answer> {
    let types: Vec<i64> = (0..3).map(|_| *site.random.pick(&[2, 3])).collect();
    accepted(site, &types)
}

/// Faces, cells and MIXED elements.
pub fn beside_faces_and_cells(site: &mut Site) -> Option<Answer> {
    let elements = site.some_typed();
    let mixed_first = site.random.one_in(2);
    if mixed_first {
        site.add_mixed(&elements);
    }
    site.add_mesh(&[LEAST_FACE; 2], &[LEAST_CELL]);
    if !mixed_first {
        site.add_mixed(&elements);
    }
    Some(Answer::Accepted)
}

/// Elements of one fixed type, in a section of their own and in a MIXED one.
pub fn beside_fixed_type(site: &mut Site) -> Option<Answer> {
    let fixed = *site.random.pick(&[3, 5, 7, 10, 12, 14]);
    let nodes = site.faces(&[nodes_of(fixed)? as i64; 2]);
    site.add("Fixed", fixed, &nodes);
    accepted(site, &[fixed; 2])
}

/// Two MIXED sections.
pub fn two_mixed_sections(site: &mut Site) -> Option<Answer> {
    let elements = site.some_typed();
    site.add("More", MIXED, &elements[..2]);
    let types = site.types();
    accepted(site, &types)
}

/// Elements with types in front, in a section of faces: the types are nodes there.
pub fn mixed_called_faces(site: &mut Site) -> Option<Answer> {
    site.set_vertices(21);
    let elements = site.some_typed();
    site.add("Faces", NGON_N, &elements);
    Some(Answer::Accepted)
}
