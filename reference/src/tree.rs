//! The node table seen as a CGNS tree: which nodes are validated (document 01: judged), children by name and label, and
//! the ancestors that a node's meaning depends on.

use crate::labels::{Label, Parent};
use crate::sids::{type_lawful, values_lawful};
use crate::table::Table;
use crate::text::trimmed;

/// A table with the answer, for each node, whether it is validated.
#[derive(Clone, Debug)]
pub struct Tree<'a> {
    pub table: Table<'a>,
    validated: Vec<bool>,
}

impl<'a> Tree<'a> {
    /// The tree of a table. The root is validated; another node when its parent is, that parent is the root or no
    /// UserDefinedData_t, and its own label is known. All others are skipped (document 01: passed over).
    pub fn new(table: Table<'a>) -> Tree<'a> {
        let mut validated: Vec<bool> = Vec::with_capacity(table.nodes.len());
        for (number, node) in table.nodes.iter().enumerate() {
            let parent = node.parent;
            let open = number == 0
                || validated[parent]
                    && (parent == 0 || table.nodes[parent].label != Some(Label::UserDefinedData))
                    && node.label.is_some();
            validated.push(open);
        }
        Tree { table, validated }
    }

    /// The number of nodes.
    pub fn count(&self) -> usize {
        self.table.nodes.len()
    }

    /// Whether a node is validated.
    pub fn is_validated(&self, node: usize) -> bool {
        self.validated[node]
    }

    /// The known label of a node; the root has none, whatever is written there.
    pub fn label(&self, node: usize) -> Option<Label> {
        if node == 0 {
            None
        } else {
            self.table.nodes[node].label
        }
    }

    /// Whether a node is validated and has the label.
    pub fn is_validated_as(&self, node: usize, label: Label) -> bool {
        self.is_validated(node) && self.label(node) == Some(label)
    }

    /// Whether a node's name is this one, all 32 bytes compared.
    pub fn is_named(&self, node: usize, name: &str) -> bool {
        trimmed(&self.table.nodes[node].name) == name.as_bytes()
    }

    /// The children of a node, ascending.
    pub fn children(&self, node: usize) -> &[usize] {
        &self.table.nodes[node].children
    }

    /// The children of a node that have the label, ascending.
    pub fn children_labelled(&self, node: usize, label: Label) -> impl DoubleEndedIterator<Item = usize> + '_ {
        self.children(node).iter().copied().filter(move |&child| self.label(child) == Some(label))
    }

    /// The child of a node that has the name and the label, whether it conforms or not.
    pub fn child(&self, node: usize, name: &str, label: Label) -> Option<usize> {
        self.children_labelled(node, label).find(|&child| self.is_named(child, name))
    }

    /// The conforming child (document 01: the looked-up child that counts): it has the name and the label and itself
    /// meets rules 24 and 25.
    pub fn conforming_child(&self, node: usize, name: &str, label: Label) -> Option<usize> {
        self.child(node, name, label).filter(|&child| self.conforms(child))
    }

    /// Whether a node meets rules 24 and 25.
    pub fn conforms(&self, node: usize) -> bool {
        type_lawful(self, node) && values_lawful(self, node)
    }

    /// The parent of a node other than the root.
    pub fn parent(&self, node: usize) -> Option<usize> {
        (node > 0).then(|| self.table.nodes[node].parent)
    }

    /// The row of the containment table that a node other than the root stands under; none under an unknown label.
    pub fn parent_row(&self, node: usize) -> Option<Parent> {
        match self.parent(node)? {
            0 => Some(Parent::Root),
            parent => self.label(parent).map(Parent::Labelled),
        }
    }

    /// The parent of a node, when it has the label.
    pub fn parent_labelled(&self, node: usize, label: Label) -> Option<usize> {
        self.parent(node).filter(|&parent| self.label(parent) == Some(label))
    }

    /// The Zone_t that a child's child belongs to: its parent's parent.
    pub fn zone_above(&self, node: usize) -> Option<usize> {
        self.parent(node).and_then(|parent| self.parent_labelled(parent, Label::Zone))
    }
}
