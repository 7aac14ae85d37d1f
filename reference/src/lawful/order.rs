//! Node orders in which parents come first.

use super::Maker;

impl Maker<'_> {
    /// Puts the nodes into another lawful order.
    pub(super) fn mix_order(&mut self) {
        let count = self.image.nodes.len();
        let order = match self.random.below(4) {
            0 => (0..count).collect(),
            1 => self.breadth_first(),
            _ => self.any_order(),
        };
        self.image.reorder(&order);
    }

    /// The nodes level by level.
    fn breadth_first(&mut self) -> Vec<usize> {
        let mut order = vec![0];
        let mut done = 0;
        while done < order.len() {
            order.extend(self.image.children(order[done]));
            done += 1;
        }
        order
    }

    /// The nodes in any order in which parents come first.
    fn any_order(&mut self) -> Vec<usize> {
        let mut children = vec![Vec::new(); self.image.nodes.len()];
        for node in 1..self.image.nodes.len() {
            children[self.image.nodes[node].parent as usize].push(node);
        }
        let depth_first = self.random.one_in(2);
        let mut open = vec![0];
        let mut order = Vec::new();
        while !open.is_empty() {
            let place = if depth_first { open.len() - 1 } else { self.random.index(open.len()) };
            let node = open.swap_remove(place);
            order.push(node);
            let mut below = std::mem::take(&mut children[node]);
            self.random.shuffle(&mut below);
            open.extend(below);
        }
        order
    }
}
