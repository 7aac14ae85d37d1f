//! Rule 22, "a second child of a label allowed once", stood in document 01 until document 02, §5, took it out: it can
//! never come. Here it is defined once more, and with its row put back between 21 and 23 no answer changes.

mod generated;
mod pairs;

use reference::build::{Image, Node};
use reference::cases::{case, cases};
use reference::damage::DAMAGES;
use reference::labels::Label;
use reference::samples::samples;
use reference::sids::{contained, fixed_name_used};
use reference::table::Table;
use reference::text::Text;
use reference::tree::Tree;
use reference::validate;
use reference::validation::{check_nodes, NodeRule, NODE_RULES};
use reference::Rejection;

/// The labels allowed once, each with its text and its fixed name.
const ONCE_ONLY: [(Label, &str, &str); 4] = [
    (Label::CGNSLibraryVersion, "CGNSLibraryVersion_t", "CGNSLibraryVersion"),
    (Label::ZoneType, "ZoneType_t", "ZoneType"),
    (Label::Rind, "Rind_t", "Rind"),
    (Label::GridLocation, "GridLocation_t", "GridLocation"),
];

/// The earlier siblings that have the label of a node, if it is one allowed once.
fn earlier_ones(tree: &Tree, node: usize) -> Vec<usize> {
    let label = tree.label(node).filter(|label| ONCE_ONLY.iter().any(|(once, ..)| once == label));
    let like_it = |&n: &usize| label.is_some() && tree.label(n) == label && tree.parent(n) == tree.parent(node);
    (1..node).filter(like_it).collect()
}

/// Rule 22: no earlier sibling has the label of the node, if it is one allowed once.
fn allowed_again(tree: &Tree, node: usize) -> bool {
    earlier_ones(tree, node).is_empty()
}

/// The rules with 22 between 21 and 23.
fn rules_with_22() -> Vec<NodeRule> {
    let mut rules = NODE_RULES.to_vec();
    rules.insert(2, (22, allowed_again));
    rules
}

/// The refusal by these rules, behind rules 1 to 18.
fn refusal_by(rules: &[NodeRule], image: &[u8]) -> Option<Rejection> {
    Table::read(image).and_then(|table| check_nodes(&Tree::new(table), rules)).err()
}

/// Holds the answer on an image against that of the rules with 22. Wherever 22 does not hold, the node or an earlier one
/// like it breaks 20 or 21. Answers at how many validated nodes it does not hold.
fn check_alike(image: &[u8], what: &str) -> usize {
    let refusal = refusal_by(&rules_with_22(), image);
    assert_eq!(refusal, validate(image).err(), "{what}");
    assert!(refusal.is_none_or(|r| r.rule != 22), "{what}");
    let Ok(tree) = Table::read(image).map(Tree::new) else {
        return 0;
    };
    let again: Vec<usize> = (0..tree.count()).filter(|&n| tree.is_validated(n) && !allowed_again(&tree, n)).collect();
    for &node in &again {
        let refused = |&n: &usize| !contained(&tree, n) || !fixed_name_used(&tree, n);
        assert!(refused(&node) || earlier_ones(&tree, node).iter().any(refused), "{what}, node {node}");
    }
    again.len()
}

/// Adds a node under a parent, in front of the node of a number behind it.
fn insert(image: &mut Image, parent: usize, place: usize, node: Node) {
    let added = image.add(parent, node);
    let mut order: Vec<usize> = (0..added).collect();
    order.insert(place, added);
    image.reorder(&order);
}

/// A node of a label allowed once, with lawful data for a zone of so many directions.
fn node_of(label: &str, name: Text, directions: u64) -> Node {
    let node = match label {
        "CGNSLibraryVersion_t" => Node::new("", label, "R4", &[1], vec![0; 4]),
        "ZoneType_t" => Node::text("", label, if directions == 1 { "Unstructured" } else { "Structured" }),
        "GridLocation_t" => Node::text("", label, "Vertex"),
        _ => Node::integers("", label, 4, &[2 * directions], &vec![0; 2 * directions as usize]),
    };
    Node { name, ..node }
}

#[test]
fn the_number_is_not_used_again() {
    assert!(NODE_RULES.iter().all(|(rule, _)| *rule != 22));
    assert!(DAMAGES.iter().all(|(rule, _)| *rule != 22));
    let first: Vec<u32> = rules_with_22().iter().take(4).map(|(rule, _)| *rule).collect();
    assert_eq!(first, [20, 21, 22, 23]);
}

#[test]
fn worked_cases_and_samples_are_answered_alike() {
    let images = cases().into_iter().chain(samples());
    let again = images.filter(|(name, image)| check_alike(image, name) > 0).count();
    assert_eq!(again, 13);
}

#[test]
fn it_would_come_without_the_fixed_names() {
    let without_21: Vec<NodeRule> = rules_with_22().into_iter().filter(|(rule, _)| *rule != 21).collect();
    let of = |name: &str| refusal_by(&without_21, &case(name)).map(|r| (r.rule, r.node));
    for name in ["o5_rind_name", "o5_rind_first", "o5_location_name", "o5_coordinates_name"] {
        assert_eq!(of(name), Some((22, 7)), "{name}");
    }
    assert_eq!(of("o5_type_name"), Some((22, 5)));
    assert_eq!(of("o5_version_name"), Some((22, 6)));
    for name in ["a", "o5_user", "o5_unknown", "o5_two_flows"] {
        assert_eq!(of(name), None, "{name}");
    }
}
