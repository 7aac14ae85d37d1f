//! Cases of name bytes (document 02, §3). Each adds a family of siblings to a lawful image, or to a short one, and says
//! how the image is to be answered: accepted, or refused by a rule at a node of the family.

mod accepted;
mod refused;
mod site;
mod texts;

use super::Answer;
use crate::build::Image;
use crate::lawful::SizeClass;
use crate::random::Random;

use accepted::*;
use refused::*;
use site::Site;

/// A case: it changes a lawful image and answers how that is to be answered; nothing where the image has no place for it.
pub type NameCase = fn(&mut Site) -> Option<Answer>;

/// The cases, each with its name.
pub const NAME_CASES: [(&str, NameCase); 22] = [
    ("names that differ in every byte", every_byte),
    ("twin", twin),
    ("names that differ in the last byte", last_byte),
    ("skipped siblings", skipped),
    ("twin behind many siblings", far_twin),
    ("names that part anywhere", branching),
    ("the same names under two parents", cousins),
    ("three alike", three_alike),
    ("zones of a base", zones),
    ("known and unknown labels", known_and_unknown),
    ("refused by its meaning", counted_all_the_same),
    ("many siblings", many_siblings),
    ("twin beside another rule", twin_beside_another_rule),
    ("names that differ in the first byte", first_byte),
    ("nearly alike", nearly_alike),
    ("twin among skipped nodes", skipped_twin),
    ("prefixes", prefixes),
    ("names with blanks", blanks),
    ("two pairs alike", two_pairs),
    ("names that part anywhere", branching),
    ("names from above", names_from_above),
    ("twin of another label", twin_of_another_label),
];

/// Makes the case of a number of a lawful image of a class: all cases one after the other, then all again.
pub fn name_case(image: &mut Image, random: &mut Random, class: SizeClass, number: usize) -> Option<Answer> {
    NAME_CASES[number % NAME_CASES.len()].1(&mut Site { image, random, class })
}
