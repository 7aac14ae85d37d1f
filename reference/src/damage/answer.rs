//! How an image with a case in it is to be answered.

use crate::rejection::Rejection;
use crate::validation::Counts;

/// The answer that a case asks for: acceptance, or a refusal.
#[derive(Clone, Copy, Debug, PartialEq, Eq)]
pub enum Answer {
    Accepted,
    Refused(Rejection),
}

impl Answer {
    /// Refused by a rule at a node, without an entry.
    pub fn at_node(rule: u32, node: usize) -> Answer {
        Answer::Refused(Rejection::at_node(rule, node))
    }

    /// Refused by a rule at an entry of a section's connectivity, counted from 1.
    pub fn at_entry(rule: u32, node: usize, entry: u64) -> Answer {
        Answer::Refused(Rejection::at_entry(rule, node, entry))
    }

    /// Whether a verdict is this one; the counts are left open.
    pub fn is(self, verdict: &Result<Counts, Rejection>) -> bool {
        match (self, verdict) {
            (Answer::Accepted, Ok(_)) => true,
            (Answer::Refused(expected), Err(rejection)) => expected == *rejection,
            _ => false,
        }
    }
}
