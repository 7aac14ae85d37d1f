//! Cases of points (document 02, §1). Each adds nodes to a zone of a lawful image and says how the image is to be
//! answered: accepted, or refused by a rule at one of these nodes.

mod accepted;
mod broken;
mod placing;
mod site;
mod sizes;

use super::Answer;
use crate::build::Image;
use crate::random::Random;

use accepted::*;
use broken::*;
use placing::*;
use site::Site;
use sizes::*;

/// A case: it changes a lawful image and answers how that is to be answered; nothing where the image has no place for it.
pub type PointCase = fn(&mut Site) -> Option<Answer>;

/// The cases, each with its name and the fewest directions of a zone that it needs. Those whose arrays are accepted come
/// more than once.
pub const POINT_CASES: [(&str, usize, PointCase); 33] = [
    ("arrays sized by a range", 1, sized_by_range),
    ("begin above end", 1, begin_above_end),
    ("range and list", 1, range_and_list),
    ("other size than the list's", 1, other_size_than_list),
    ("list in a zone", 1, list_in_zone),
    ("product beyond 64 bits", 3, product_beyond_64_bits),
    ("crossed name", 1, crossed_name),
    ("number of -2^31", 1, number_too_small),
    ("other size than the range's", 1, other_size_than_range),
    ("arrays sized by a list", 1, sized_by_list),
    ("range of another type", 1, range_of_other_type),
    ("the zone's size beside points", 1, zone_size_beside_points),
    ("known label below points", 1, known_label_below),
    ("arrays sized by a range", 1, sized_by_range),
    ("the size of a bad range", 1, size_of_bad_range),
    ("great range without arrays", 1, great_range_alone),
    ("list of another type", 1, list_of_other_type),
    ("list in a section", 1, list_in_section),
    ("rind in the size", 1, rind_in_size),
    ("range of points in a section", 1, range_in_section),
    ("the size of a bad list", 1, size_of_bad_list),
    ("product beyond 32 bits", 2, product_beyond_32_bits),
    ("number beyond 32 bits", 1, number_too_great),
    ("arrays sized by a list", 1, sized_by_list),
    ("points under coordinates", 1, points_under_coordinates),
    ("list elsewhere", 1, list_elsewhere),
    ("names of other labels", 1, names_of_other_labels),
    ("the size of a crossed range", 1, size_of_crossed_range),
    ("points in user data", 1, points_in_user_data),
    ("arrays sized by a range", 2, sized_by_range),
    ("bad rind or location beside points", 1, bad_neighbour),
    ("the size of points under coordinates", 1, size_under_coordinates),
    ("unknown label below points", 1, unknown_label_below),
];

/// The fewest directions of the zones that a case is made in, in turn.
const DIRECTIONS: [usize; 4] = [1, 3, 1, 2];

/// Makes the case of a number of a lawful image: all cases one after the other, then all again with other directions.
pub fn point_case(image: &mut Image, random: &mut Random, number: usize) -> Option<Answer> {
    let (_, least, case) = POINT_CASES[number % POINT_CASES.len()];
    let turn = DIRECTIONS[number / POINT_CASES.len() % DIRECTIONS.len()];
    case(&mut Site::find(image, random, least.max(turn))?)
}

/// Any of the cases.
pub fn points(image: &mut Image, random: &mut Random) {
    let number = random.index(POINT_CASES.len() * DIRECTIONS.len());
    point_case(image, random, number);
}
