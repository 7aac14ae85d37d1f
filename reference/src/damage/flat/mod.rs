//! Cases of flat faces and cells (document 02, §2). Each adds one or two zones to a lawful image and says how the image
//! is to be answered: accepted, or refused by a rule at a section of such a zone.

mod accepted;
mod refused;
mod site;

use super::Answer;
use crate::build::Image;
use crate::random::Random;

use accepted::*;
use refused::*;

pub use site::{LEAST_CELL, LEAST_FACE};

/// A case: it changes a lawful image and answers how that is to be answered.
pub type FlatCase = fn(&mut Image, &mut Random) -> Option<Answer>;

/// The cases, each with its name. The most telling ones come twice.
pub const FLAT_CASES: [(&str, FlatCase); 22] = [
    ("flat face", flat_face),
    ("least faces and cells", least_faces_and_cells),
    ("flat cell behind a bad face", flat_cell_behind_bad_face),
    ("flat on a surface", flat_on_surface),
    ("flat beside a surface", flat_beside_surface),
    ("repeats", repeats),
    ("flat cell", flat_cell),
    ("flat face and bad offsets", flat_and_bad_offsets),
    ("surface beside a volume", surface_beside_volume),
    ("flat face behind a bad node", flat_face_behind_bad_node),
    ("flat on a line", flat_on_line),
    ("bad face in a least cell", bad_face_in_least_cell),
    ("flat cell", flat_cell),
    ("elements of fixed types", fixed_types),
    ("flat face behind a bad node", flat_face_behind_bad_node),
    ("flat on a surface", flat_on_surface),
    ("flat faces and cells", flat_faces_and_cells),
    ("bad node in a least face", bad_node_in_least_face),
    ("flat face", flat_face),
    ("flat faces and a bad cell", flat_faces_and_bad_cell),
    ("flat beside a surface", flat_beside_surface),
    ("flat cell behind a bad face", flat_cell_behind_bad_face),
];

/// Makes the case of a number of a lawful image: all cases one after the other, then all again.
pub fn flat_case(image: &mut Image, random: &mut Random, number: usize) -> Option<Answer> {
    FLAT_CASES[number % FLAT_CASES.len()].1(image, random)
}
