//! Cases of references (document 02, §6). Each adds a zone to a lawful image, or to a short one, and says how the image is
//! to be answered: accepted, or refused by a rule at a section of that zone, with the entry for rules 34 to 37.

mod accepted;
mod cells;
mod nodes;
mod order;
mod site;

use super::site::Site;
use super::Answer;
use crate::build::Image;
use crate::lawful::{chain, SizeClass};
use crate::random::Random;

use accepted::*;
use cells::*;
use nodes::*;
use order::*;

/// A case: it adds sections to a new zone and answers how the image is to be answered.
pub type ReferenceCase = fn(&mut Site) -> Option<Answer>;

/// The cases, each with its name and the most nodes that it adds.
pub const REFERENCE_CASES: [(&str, usize, ReferenceCase); 36] = [
    ("zero", 11, zero),
    ("the section itself", 11, itself),
    ("no element", 11, no_element),
    ("bad node in faces", 7, bad_node_in_faces),
    ("faces behind the cells", 15, faces_behind),
    ("a cell before zero", 11, cell_before_zero),
    ("another section of cells", 15, other_cells),
    ("a section of an untaken type", 15, untaken_type),
    ("own data that do not conform", 15, bad_own_data),
    ("the least number of 4 bytes", 11, least_of_4_bytes),
    ("bad node in a MIXED section", 7, bad_node_in_mixed),
    ("a face in two ranges", 15, face_in_two_ranges),
    ("a fixed type", 15, fixed_type),
    ("another zone", 17, other_zone),
    ("zero before another", 11, zero_before_another),
    ("bad node in a fixed type", 7, bad_node_in_fixed_type),
    ("a range that does not conform", 15, bad_range),
    ("in two ranges and no face", 19, in_two_ranges_and_no_face),
    ("the least number of 8 bytes", 11, least_of_8_bytes),
    ("a MIXED section", 15, mixed_section),
    ("the greatest face", 11, greatest_face),
    ("two bad nodes", 7, two_bad_nodes),
    ("beyond 4 bytes", 11, beyond_4_bytes),
    ("no element before zero", 11, no_element_before_zero),
    ("two bad sections of cells", 15, two_bad_sections),
    ("the greatest number of 8 bytes", 11, greatest_of_8_bytes),
    ("faces refused later", 15, faces_refused_later),
    ("a face in another zone only", 21, face_in_other_zone_only),
    ("bad node and bad cell", 11, bad_node_and_bad_cell),
    ("bad node beyond 4 bytes", 7, bad_node_beyond_4_bytes),
    ("the same numbers in two zones", 21, same_numbers_in_two_zones),
    ("a cell and no element", 11, cell_and_no_element),
    ("a section without connectivity", 15, no_connectivity),
    ("a face in the cells' own range", 15, face_in_own_range),
    ("three bad references", 11, three_bad_references),
    ("beside other sections", 19, beside_other_sections),
];

/// Makes the case of a number of a lawful image of a class: all cases one after the other, then all again. A short image
/// takes the place of a small one that has no room for the case.
pub fn reference_case(image: &mut Image, random: &mut Random, class: SizeClass, number: usize) -> Option<Answer> {
    let (_, nodes, case) = REFERENCE_CASES[number % REFERENCE_CASES.len()];
    if class == SizeClass::Small && class.room(image) < nodes {
        *image = chain(random, 1);
    }
    let dimension = *random.pick(&[1, 2, 3, 3]);
    case(&mut Site::new(image, random, dimension))
}
