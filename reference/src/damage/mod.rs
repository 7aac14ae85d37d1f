//! Damage to lawful images: for each rule the ways in which it may be broken. A damage that finds no place for itself
//! leaves the image as it is.

mod answer;
mod containment;
mod flat;
mod header;
mod mixed;
mod names;
mod once_only;
mod parent_arrays;
mod parents;
mod pick;
mod points;
mod records;
mod references;
mod sections;
mod site;
mod stored_types;
mod values;

use crate::build::Image;
use crate::random::Random;
use containment::*;
use header::*;
use once_only::*;
use parent_arrays::*;
use points::points;
use records::*;
use sections::*;
use stored_types::*;
use values::*;

pub use answer::Answer;
pub use flat::{flat_case, FLAT_CASES};
pub use header::flips;
pub use mixed::{mixed_case, MIXED_CASES};
pub use names::{name_case, NAME_CASES};
pub use parents::{parent_case, PARENT_CASES};
pub use points::{point_case, POINT_CASES};
pub use references::{reference_case, REFERENCE_CASES};

/// A way to break an image: its nodes, words of its header, or its length in bytes.
#[derive(Clone, Copy)]
pub enum Damage {
    Nodes(fn(&mut Image, &mut Random)),
    Words(fn(&mut [u8], &mut Random)),
    Length(fn(&mut Vec<u8>, &mut Random)),
}

use Damage::{Length, Nodes, Words};

/// The rules that an image may break, each with its damages.
pub const DAMAGES: [(u32, &[Damage]); 37] = [
    (1, &[Length(cut_short), Length(cut_short), Length(cut_short), Length(too_long)]),
    (2, &[Words(other_form)]),
    (3, &[Words(other_length), Length(more_bytes), Length(fewer_bytes)]),
    (4, &[Words(node_count_out)]),
    (5, &[Words(word_count_out)]),
    (6, &[Words(other_offset), Words(other_count)]),
    (7, &[Nodes(other_parent)]),
    (8, &[Nodes(too_deep)]),
    (9, &[Nodes(bad_name)]),
    (10, &[Nodes(bad_label)]),
    (11, &[Nodes(twin_name), Nodes(second_under_fixed_name)]),
    (12, &[Nodes(link)]),
    (13, &[Nodes(unknown_type)]),
    (14, &[Nodes(dimension_count_out), Nodes(dimension_count_word)]),
    (15, &[Nodes(other_first_word), Nodes(words_missing), Nodes(one_word_more)]),
    (
        16,
        &[
            Nodes(zero_dimension),
            Nodes(other_dimension),
            Nodes(wrapping_product),
            Nodes(data_under_mt),
            Nodes(other_data_length),
        ],
    ),
    (17, &[Nodes(other_data_offset), Nodes(data_missing)]),
    (18, &[Nodes(trailing)]),
    (
        20,
        &[
            Nodes(misplaced),
            Nodes(misplaced),
            Nodes(misplaced),
            Nodes(misplaced),
            Nodes(section_in_structured_zone),
            Nodes(points),
        ],
    ),
    (21, &[Nodes(renamed), Nodes(second_under_other_name), Nodes(points)]),
    (23, &[Nodes(required_removed), Nodes(required_broken), Nodes(no_base)]),
    (24, &[Nodes(other_type), Nodes(other_shape), Nodes(section_array_type), Nodes(rind_to_default), Nodes(points)]),
    (25, &[Nodes(other_values), Nodes(other_values), Nodes(rind_to_default), Nodes(points)]),
    (
        26,
        &[
            Nodes(other_array_size),
            Nodes(other_rind),
            Nodes(other_location),
            Nodes(rind_broken),
            Nodes(other_points),
            Nodes(points),
        ],
    ),
    (27, &[Nodes(other_element_type)]),
    (28, &[Nodes(meeting_ranges)]),
    (29, &[Nodes(other_range_length), Nodes(other_array_length), Nodes(no_offsets)]),
    (30, &[Nodes(first_offset)]),
    (31, &[Nodes(offset_not_rising)]),
    (32, &[Nodes(last_offset), Nodes(connectivity_longer)]),
    (33, &[Nodes(flat_element), Nodes(flat_element), Nodes(flat_element), Nodes(third_dimension)]),
    (34, &[Nodes(other_node_reference)]),
    (35, &[Nodes(zero_face_reference)]),
    (36, &[Nodes(no_element_reference), Nodes(no_element_reference), Nodes(face_section_lost)]),
    (37, &[Nodes(element_reference), Nodes(element_reference), Nodes(face_section_retyped)]),
    (38, &[Nodes(unlisted), Nodes(unlisted), Nodes(of_other_size), Nodes(other_start), Nodes(called_mixed)]),
    (39, &[Nodes(parent_number), Nodes(parent_number), Nodes(parent_type), Nodes(parent_shape)]),
];

/// The damages of a rule.
pub fn damages_of(rule: u32) -> &'static [Damage] {
    DAMAGES.iter().find(|(known, _)| *known == rule).map_or(&[], |&(_, damages)| damages)
}
