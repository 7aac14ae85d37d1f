//! The whole verdict (document 01, "Rule numbers"): header, records, trailing words or bytes, then the nodes in order, at
//! a node the lowest rule first, but for 38, which comes before 34 (document 02, §4), and for 34 to 37, of which the first
//! failing entry decides (document 02, §6). Rule 39 comes last (document 02, §7). There is no rule 22 (document 02, §5).

use crate::elements::{bad_reference, none_flat, stored_types_fit};
use crate::elements::{first_offset_zero, last_offset_is_length, offsets_rise};
use crate::elements::{lengths_fit, range_free, type_taken};
use crate::labels::Label;
use crate::parents::parents_lawful;
use crate::rejection::Rejection;
use crate::sids::{array_sized, contained, fixed_name_used};
use crate::sids::{required_children, type_lawful, values_lawful};
use crate::table::Table;
use crate::tree::Tree;

/// What an acceptance reports: nodes validated, nodes skipped, validated zones, validated sections.
#[derive(Clone, Copy, Debug, PartialEq, Eq)]
pub struct Counts {
    pub validated: u64,
    pub skipped: u64,
    pub zones: u64,
    pub sections: u64,
}

/// A rule of validated nodes: its number, and whether it holds at a node.
pub type NodeRule = (u32, fn(&Tree, usize) -> bool);

/// The rules of a validated node in the order in which they are asked, but for 34 to 37, which come behind all of them,
/// and 39, which comes behind those. This list alone knows it.
pub const NODE_RULES: [NodeRule; 14] = [
    (20, contained),
    (21, fixed_name_used),
    (23, required_children),
    (24, type_lawful),
    (25, values_lawful),
    (26, array_sized),
    (27, type_taken),
    (28, range_free),
    (29, lengths_fit),
    (30, first_offset_zero),
    (31, offsets_rise),
    (32, last_offset_is_length),
    (33, none_flat),
    (38, stored_types_fit),
];

/// The four counts of an accepted image, or the first broken rule, its node and, for rules 34 to 37, its entry.
pub fn validate(image: &[u8]) -> Result<Counts, Rejection> {
    validated_tree(image).map(|tree| counts(&tree))
}

/// The tree of an accepted image, or the first broken rule and its node.
pub fn validated_tree(image: &[u8]) -> Result<Tree<'_>, Rejection> {
    let tree = Tree::new(Table::read(image)?);
    check_nodes(&tree, &NODE_RULES)?;
    Ok(tree)
}

/// The first broken of these rules and of 34 to 37 and 39: at the lowest validated node, there the first of the list,
/// behind the list the rule of the first bad reference, and behind that 39.
pub fn check_nodes(tree: &Tree, rules: &[NodeRule]) -> Result<(), Rejection> {
    for node in (0..tree.count()).filter(|&node| tree.is_validated(node)) {
        for &(rule, holds) in rules {
            if !holds(tree, node) {
                return Err(Rejection::at_node(rule, node));
            }
        }
        if let Some(bad) = bad_reference(tree, node) {
            return Err(Rejection::at_entry(bad.rule, node, bad.entry));
        }
        if !parents_lawful(tree, node) {
            return Err(Rejection::at_node(39, node));
        }
    }
    Ok(())
}

/// The four counts of a tree.
fn counts(tree: &Tree) -> Counts {
    let count = |test: &dyn Fn(usize) -> bool| (0..tree.count()).filter(|&n| test(n)).count() as u64;
    Counts {
        validated: count(&|n| tree.is_validated(n)),
        skipped: count(&|n| !tree.is_validated(n)),
        zones: count(&|n| tree.is_validated_as(n, Label::Zone)),
        sections: count(&|n| tree.is_validated_as(n, Label::Elements)),
    }
}

/// The validated zone of an accepted image that a caller's number names, or 40.
pub fn zone_asked_for(tree: &Tree, zone: u64) -> Result<usize, Rejection> {
    let node = tree.table.node_asked_for(zone)?;
    if tree.is_validated_as(node, Label::Zone) {
        Ok(node)
    } else {
        Err(Rejection::of_call(40))
    }
}
