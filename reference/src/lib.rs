//! The independent reference program: a validator, reader and writer of CGNS node-table images, written from document 01 and
//! §1 to §8 of document 02 alone.
//! Every public call answers on every input; a refusal is a [`Rejection`].
//!
//! Data flow one way: bytes → header → records → table → tree → rules → calls.

pub mod addition;
pub mod answers;
pub mod build;
pub mod bytes;
pub mod cases;
pub mod damage;
pub mod data_type;
pub mod elements;
pub mod face_ranges;
pub mod faces;
pub mod flat_cases;
pub mod generate;
pub mod header;
pub mod labels;
pub mod lawful;
pub mod mesh;
pub mod mixed_cases;
pub mod name_bytes;
pub mod name_cases;
pub mod once_cases;
pub mod parent_cases;
pub mod parents;
pub mod path;
pub mod point_cases;
pub mod points;
pub mod queries;
pub mod random;
pub mod reader;
pub mod records;
pub mod reference_cases;
pub mod rejection;
pub mod samples;
pub mod sids;
pub mod sizes;
pub mod table;
pub mod text;
pub mod tree;
pub mod validation;
pub mod writer;
pub mod writer_calls;
pub mod writer_runs;

pub use faces::{face_count, face_usage};
pub use name_bytes::name_bytes;
pub use parents::{parents, parents_agree};
pub use path::{path, path_into};
pub use reader::{array_value, corner, corner_reads, corner_reads_into, data_size, element_corners, element_type};
pub use reader::{section_entries, section_entries_into};
pub use reader::{CornerRead, Section, Value, ENTRY_LENGTH};
pub use rejection::Rejection;
pub use sizes::DataSize;
pub use table::check_table;
pub use validation::{validate, Counts};
