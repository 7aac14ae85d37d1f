//! Cases of MIXED sections (document 02, §4). Each adds a zone to a lawful image and says how the image is to be answered:
//! accepted, or refused by a rule at a section of that zone.

mod accepted;
mod refused;
mod site;

use super::Answer;
use crate::build::Image;
use crate::random::Random;

use super::site::Site;
use accepted::*;
use refused::*;

/// A case: it adds sections to a new zone and answers how the image is to be answered.
pub type MixedCase = fn(&mut Site) -> Option<Answer>;

/// The cases, each with its name and the CellDimensions of the bases that it is made in. The most telling ones come
/// twice.
pub const MIXED_CASES: [(&str, &[i64], MixedCase); 33] = [
    ("hexahedra between prisms", &[3], hexahedra_between_prisms),
    ("type not in the list", ANY, type_not_in_list),
    ("bad type behind a bad node", ANY, bad_type_behind_bad_node),
    ("two types in turn", ANY, two_types_in_turn),
    ("bad offsets", ANY, bad_offsets),
    ("bad node", ANY, bad_node),
    ("type of another size", ANY, type_of_other_size),
    ("MIXED beside faces and cells", &[3], beside_faces_and_cells),
    ("a MIXED element as a face", ANY, mixed_as_face),
    ("many types", ANY, many_types),
    ("type beyond 4 bytes", ANY, type_beyond_4_bytes),
    ("a start between two elements moved", ANY, start_moved),
    ("as many nodes", ANY, as_many_nodes),
    ("bad node behind a bad type", ANY, bad_node_behind_bad_type),
    ("one vertex", ANY, one_vertex),
    ("ranges that meet", ANY, ranges_that_meet),
    ("types not counted", ANY, types_not_counted),
    ("small elements in three dimensions", &[3], small_elements),
    ("type not in the list", ANY, type_not_in_list),
    ("types left out", ANY, types_left_out),
    ("nodes like types", ANY, nodes_like_types),
    ("no start offsets", ANY, no_start_offsets),
    ("two MIXED sections", ANY, two_mixed_sections),
    ("flat face and a bad type", &[3], flat_face_and_bad_type),
    ("bad node", ANY, bad_node),
    ("types exchanged", ANY, types_exchanged),
    ("MIXED beside a fixed type", ANY, beside_fixed_type),
    ("a type alone", ANY, type_alone),
    ("bad type behind a bad node", ANY, bad_type_behind_bad_node),
    ("bad type and a bad cell", ANY, bad_type_and_bad_cell),
    ("MIXED elements called faces", &[1, 2], mixed_called_faces),
    ("faces called MIXED", ANY, faces_called_mixed),
    ("type of another size", ANY, type_of_other_size),
];

/// All CellDimensions.
const ANY: &[i64] = &[1, 2, 3, 3];

/// Makes the case of a number of a lawful image: all cases one after the other, then all again.
pub fn mixed_case(image: &mut Image, random: &mut Random, number: usize) -> Option<Answer> {
    let (_, dimensions, case) = MIXED_CASES[number % MIXED_CASES.len()];
    let dimension = *random.pick(dimensions);
    case(&mut Site::new(image, random, dimension))
}
