//! What a refused call answers (document 01, "Rule numbers"; document 02, §6): the rule, the node, for rule 45 alone the
//! element, and for rules 34 to 37 the entry. Every rejection of this crate is built by one of the four functions here.

use std::fmt;

/// A refusal: the first broken rule, its node (0 where the documents name none), the element (0 but for rule 45) and the
/// entry, the place of the first failing reference in the connectivity, counted from 1 (0 but for rules 34 to 37).
#[derive(Clone, Copy, Debug, PartialEq, Eq)]
pub struct Rejection {
    pub rule: u32,
    pub node: u64,
    pub element: u64,
    pub entry: u64,
}

impl Rejection {
    /// The refusal of `rule` at an element of `node`.
    pub fn at_element(rule: u32, node: u64, element: u64) -> Rejection {
        Rejection { rule, node, element, entry: 0 }
    }

    /// The refusal of `rule` at an entry of the connectivity of `node`.
    pub fn at_entry(rule: u32, node: usize, entry: u64) -> Rejection {
        Rejection { rule, node: node as u64, element: 0, entry }
    }

    /// The refusal of `rule` at `node`.
    pub fn at_node(rule: u32, node: usize) -> Rejection {
        Rejection::at_entry(rule, node, 0)
    }

    /// The refusal of `rule` where the documents name no node.
    pub fn of_call(rule: u32) -> Rejection {
        Rejection::at_node(rule, 0)
    }
}

impl fmt::Display for Rejection {
    /// `refuse RULE NODE`, for rule 45 `refuse 45 NODE ELEMENT`, and where there is an entry `refuse RULE NODE entry K`.
    fn fmt(&self, f: &mut fmt::Formatter<'_>) -> fmt::Result {
        write!(f, "refuse {} {}", self.rule, self.node)?;
        if self.rule == 45 {
            write!(f, " {}", self.element)?;
        }
        if self.entry != 0 {
            write!(f, " entry {}", self.entry)?;
        }
        Ok(())
    }
}
