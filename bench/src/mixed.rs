//! Images with one MIXED section, as large as there may be: types at random, the smallest elements, the largest, and a last element
//! that breaks rule 38.

use reference::build::{Image, Node};
use reference::elements::{nodes_of, MIXED};
use reference::random::Random;

use crate::odd::{odd, Odd};
use crate::parts::with_zone;

/// Numbers of 4 bytes beside a few nodes: start offsets and connectivity together.
const NUMBERS: usize = 4_190_000;

const NODE: i64 = 2;
const HEXA_8: i64 = 17;
const HEXA_27: i64 = 19;

pub fn images() -> Vec<Odd> {
    let random = &mut Random::new(0, 1);
    let fixed: Vec<i64> = (0..MIXED + 2).filter(|&element_type| nodes_of(element_type).is_some()).collect();
    let few = [10, 12, 14, HEXA_8];
    vec![
        odd("a MIXED section, types at random among all", "mixed_random", filled(|| *random.pick(&fixed))),
        odd("a MIXED section, types at random among those of four cells", "mixed_cells", filled(|| *random.pick(&few))),
        odd("a MIXED section of elements of one node", "mixed_nodes", filled(|| NODE)),
        odd("a MIXED section of elements of 27 nodes", "mixed_largest", filled(|| HEXA_27)),
        Odd {
            rule: 38,
            ..odd(
                "a MIXED section of hexahedra, MIXED stored as the last type: rule 38",
                "mixed_last_type",
                last_is_mixed(filled(|| HEXA_8)),
            )
        },
    ]
}

/// A section of elements of the types told, as many as there is room for; their nodes are 1, 2 and 3 in turn.
fn filled(mut next_type: impl FnMut() -> i64) -> Image {
    let (mut sizes, mut connectivity) = (Vec::new(), Vec::new());
    while sizes.len() + connectivity.len() < NUMBERS {
        let element_type = next_type();
        let nodes = nodes_of(element_type).expect("a fixed type") as i64;
        sizes.push(1 + nodes);
        connectivity.push(element_type);
        connectivity.extend((0..nodes).map(|k| 1 + k % 3));
    }
    let (mut image, zone) = with_zone();
    let section = image.add(zone, Node::integers("Section", "Elements_t", 4, &[2], &[MIXED, 0]));
    image.add(section, Node::integers("ElementRange", "IndexRange_t", 4, &[2], &[1, sizes.len() as i64]));
    image.add(section, Node::start_offsets(4, &sizes));
    image.add(section, Node::list("ElementConnectivity", 4, &connectivity));
    image
}

/// An image of hexahedra with MIXED as the type of the last.
fn last_is_mixed(mut image: Image) -> Image {
    let Some(connectivity) = image.nodes.last_mut() else { return image };
    let mut numbers = connectivity.numbers();
    let place = numbers.len() - 9;
    numbers[place] = MIXED;
    connectivity.set_numbers(&numbers);
    image
}
