//! Elements of MIXED sections: their types, each stored in front of an element's nodes.

use crate::elements::nodes_of;
use crate::random::Random;

use super::FIXED_TYPES;

/// The fixed types that have as many nodes as this one, itself among them.
pub fn types_of_same_size(element_type: i64) -> Vec<i64> {
    FIXED_TYPES.into_iter().filter(|&other| nodes_of(other) == nodes_of(element_type)).collect()
}

/// The fixed types that have more or fewer nodes than this one.
pub fn types_of_other_size(element_type: i64) -> Vec<i64> {
    FIXED_TYPES.into_iter().filter(|&other| nodes_of(other) != nodes_of(element_type)).collect()
}

/// The types of so many elements: in runs, two in turn, all with as many nodes, or any.
pub fn some_types(random: &mut Random, count: usize) -> Vec<i64> {
    let any = |random: &mut Random| *random.pick(&FIXED_TYPES);
    match random.below(4) {
        0 => {
            let mut types = Vec::new();
            while types.len() < count {
                let run = 1 + random.index(count.div_ceil(2));
                types.extend(vec![any(random); run]);
            }
            types.truncate(count);
            types
        }
        1 => {
            let two = [any(random), any(random)];
            two.into_iter().cycle().take(count).collect()
        }
        2 => {
            let same = types_of_same_size(any(random));
            (0..count).map(|_| *random.pick(&same)).collect()
        }
        _ => (0..count).map(|_| any(random)).collect(),
    }
}

/// An element of a fixed type as a MIXED section stores it: the type, and any nodes of a zone with so many vertices.
pub fn typed_element(random: &mut Random, element_type: i64, vertices: i64) -> Vec<i64> {
    let nodes = nodes_of(element_type).unwrap_or(0);
    let mut element = vec![element_type];
    element.extend((0..nodes).map(|_| node_reference(random, vertices)));
    element
}

/// A node number, the least and the greatest among them.
pub fn node_reference(random: &mut Random, vertices: i64) -> i64 {
    match random.below(8) {
        0 => 1,
        1 => vertices,
        _ => random.between(1, vertices),
    }
}
