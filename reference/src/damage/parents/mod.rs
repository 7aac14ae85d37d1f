//! Cases of parents (document 02, §7). Each adds a zone to a lawful image, or to a short one, and says how the image is to
//! be answered: accepted, or refused by a rule at a section of that zone.

mod agreement;
mod numbers;
mod ordinary;
mod shapes;
mod site;

use super::site::Site;
use super::Answer;
use crate::build::Image;
use crate::lawful::{chain, SizeClass};
use crate::random::Random;

use agreement::*;
use numbers::*;
use ordinary::*;
use shapes::*;

/// A case: it adds sections to a new zone and answers how the image is to be answered.
pub type ParentCase = fn(&mut Site) -> Option<Answer>;

/// The cases, each with its name and the most nodes that it adds. The most telling ones come twice.
pub const PARENT_CASES: [(&str, usize, ParentCase); 48] = [
    ("parents that agree", 12, agreeing),
    ("a second parent too many", 12, second_too_many),
    ("a face as a parent", 12, face_as_parent),
    ("the first parent is 0", 12, first_is_zero),
    ("one of two parents is another cell", 12, one_of_two_is_other),
    ("agreeing in several sections", 21, agreeing_in_sections),
    ("empty parents", 12, empty),
    ("under another label", 12, other_label),
    ("a face of no cell", 16, face_of_no_cell),
    ("one cell on both sides", 12, cell_on_both_sides),
    ("turned round", 12, turned),
    ("a number of no element", 12, no_element),
    ("parents that agree", 12, agreeing),
    ("the second left out", 12, second_left_out),
    ("a section without parents", 16, section_without),
    ("a bad node before bad parents", 12, bad_node_before),
    ("another cell alone", 12, other_cell_alone),
    ("a cell of another zone", 22, cell_of_other_zone),
    ("another type", 12, other_type),
    ("in cells", 13, in_cells),
    ("one cell twice", 12, one_cell_twice),
    ("a face used twice with one sign", 12, repeat),
    ("a negative parent", 12, negative),
    ("the least number of 4 bytes", 12, least_of_4_bytes),
    ("agreeing in several sections", 21, agreeing_in_sections),
    ("bad parents and a bad cell", 12, bad_parents_and_bad_cell),
    ("an element of a fixed type", 16, fixed_element),
    ("any cells", 21, any_cells),
    ("another shape", 12, other_shape),
    ("one side left out", 12, one_side_left_out),
    ("beyond 4 bytes", 12, beyond_4_bytes),
    ("cells that do not count", 16, uncounted_cells),
    ("no parents", 11, no_parents),
    ("an empty array in cells", 12, empty_in_cells),
    ("one section disagrees", 21, one_section_disagrees),
    ("a MIXED element", 16, mixed_element),
    ("parents without cells", 8, without_cells),
    ("cells refused later", 16, cells_refused_later),
    ("bad parents in two sections", 17, two_bad_arrays),
    ("in a fixed or a MIXED section", 16, in_other_section),
    ("one of two parents is another cell", 12, one_of_two_is_other),
    ("bad offsets before bad parents", 12, bad_offsets_before),
    ("a cell that is a face too", 16, cell_and_face),
    ("the same numbers in two zones", 23, same_numbers_in_two_zones),
    ("the greatest cells", 12, greatest_cells),
    ("nearly of that name", 12, nearly_named),
    ("an unused face without parents", 16, unused_without_parents),
    ("several bad numbers", 12, several_bad_numbers),
];

/// Makes the case of a number of a lawful image of a class: all cases one after the other, then all again. A short image
/// takes the place of a small one that has no room for the case.
pub fn parent_case(image: &mut Image, random: &mut Random, class: SizeClass, number: usize) -> Option<Answer> {
    let (_, nodes, case) = PARENT_CASES[number % PARENT_CASES.len()];
    if class == SizeClass::Small && class.room(image) < nodes {
        *image = chain(random, 1);
    }
    let dimension = *random.pick(&[1, 2, 3, 3]);
    case(&mut Site::new(image, random, dimension))
}
