//! Documents, user defined data and foreign subtrees: what is validated but for what stands below it, or skipped.

use super::Maker;
use crate::build::Node;
use crate::labels::LABELS;

/// The data types that store something.
pub const STORING_TYPES: [&str; 10] = ["C1", "B1", "I4", "U4", "R4", "I8", "U8", "R8", "X4", "X8"];

/// Labels that are not known, some of them nearly.
pub const FOREIGN_LABELS: [&str; 9] = [
    "Family_t",
    "ZoneBC_t",
    "zone_t",
    "Zone_t Zone_t",
    "Zone",
    "IndexArray",
    "Odd/Label_t",
    "\"int[IndexDimension]\"",
    "ABCDEFGHIJKLMNOPQRSTUVWXYZabcdef",
];

impl Maker<'_> {
    /// Descriptors, user defined data and foreign nodes, each now and then.
    pub(super) fn documents(&mut self, node: usize, rarely: u64) {
        if self.chance(rarely, 1) {
            let text = *self.random.pick(&["x", "one line", "two\nlines"]);
            let descriptor = self.add(node, Node::text("Remark", "Descriptor_t", text));
            if self.chance(4, 1) {
                self.foreign(descriptor, 1);
            }
        }
        if self.chance(rarely, 2) {
            let name = self.name();
            let user = self.add(node, Node::empty(&name, "UserDefinedData_t"));
            self.anything_below(user, 2);
        }
        if self.chance(rarely, 2) {
            self.foreign(node, 2);
        }
    }

    /// A node of an unknown label, with anything below it.
    pub(super) fn foreign(&mut self, parent: usize, levels: usize) {
        let label = *self.random.pick(&FOREIGN_LABELS);
        let name = self.name();
        let node = self.free_node(&name, label);
        let node = self.add(parent, node);
        self.anything_below(node, levels);
    }

    /// A few nodes with labels of any kind.
    fn anything_below(&mut self, parent: usize, levels: usize) {
        for _ in 0..self.random.below(3) {
            if self.room() < 4 || levels == 0 {
                return;
            }
            let label =
                if self.random.one_in(4) { *self.random.pick(&FOREIGN_LABELS) } else { self.random.pick(&LABELS).1 };
            let name = self.name();
            let node = self.free_node(&name, label);
            let node = self.add(parent, node);
            self.anything_below(node, levels - 1);
        }
    }

    /// A node of any data type with any data, lawful by rules 1 to 18.
    fn free_node(&mut self, name: &str, label: &str) -> Node {
        if self.random.one_in(2) {
            return Node::empty(name, label);
        }
        let data_type = *self.random.pick(&STORING_TYPES);
        let mut dimensions = vec![1; 1 + self.random.index(3)];
        if self.random.one_in(12) {
            dimensions = vec![1; 12];
        }
        let place = self.random.index(dimensions.len());
        dimensions[place] = 1 + self.random.below(4);
        let mut node = Node::new(name, label, data_type, &[], Vec::new());
        node.reshape(&dimensions);
        node.data = self.bytes(node.data.len());
        node
    }
}
