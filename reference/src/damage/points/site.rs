//! A zone of a lawful image, and the nodes that a case adds to it.

use super::Answer;
use crate::build::{Image, Node};
use crate::damage::pick::{is_validated, scatter, some_node};
use crate::lawful::{some_list, some_range, values_of};
use crate::random::Random;
use crate::sizes::MAX_NUMBER;

/// The most values of an array that a case adds.
pub const MOST_VALUES: u64 = 24;

/// The zone that a case adds nodes to.
pub struct Site<'a> {
    pub image: &'a mut Image,
    pub random: &'a mut Random,
    pub zone: usize,
    pub directions: usize,
}

/// What stands beside points: a Rind and a GridLocation now and then, and the zone's DataSize with them.
pub struct Beside {
    pub nodes: Vec<Node>,
    pub sizes: Vec<u64>,
}

/// Whether an array of these sizes has values, and not too many.
fn fits(sizes: &[u64]) -> bool {
    let values = sizes.iter().try_fold(1u64, |product, &size| product.checked_mul(size));
    values.is_some_and(|values| (1..=MOST_VALUES).contains(&values))
}

impl<'a> Site<'a> {
    /// A validated zone with at least so many directions.
    pub fn find(image: &'a mut Image, random: &'a mut Random, least: usize) -> Option<Site<'a>> {
        let directions = |image: &Image, n: usize| image.nodes[n].dimensions.first().map_or(0, |&d| d as usize);
        let zone = some_node(image, random, |image, n| {
            n > 0
                && image.nodes[n].is_labelled("Zone_t")
                && is_validated(image, n)
                && (least..=3).contains(&directions(image, n))
        })?;
        let directions = directions(image, zone);
        Some(Site { image, random, zone, directions })
    }

    /// 4 or 8.
    pub fn width(&mut self) -> usize {
        *self.random.pick(&[4, 8])
    }

    /// A lawful range of few points.
    pub fn small_range(&mut self) -> Vec<[i64; 2]> {
        loop {
            let range = some_range(self.random, self.directions);
            if values_of(&range) <= MOST_VALUES {
                return range;
            }
        }
    }

    /// A PointRange with these lengths, at any place.
    pub fn range_of_lengths(&mut self, lengths: &[i64]) -> Node {
        let begin = |length: i64| self.random.between(-MAX_NUMBER, MAX_NUMBER - length + 1);
        let begins: Vec<i64> = lengths.iter().copied().map(begin).collect();
        let range: Vec<[i64; 2]> = begins.iter().zip(lengths).map(|(&b, &length)| [b, b + length - 1]).collect();
        let width = self.width();
        Node::point_range(width, &range)
    }

    /// A PointRange that conforms and has few points, and how many.
    pub fn range(&mut self) -> (Node, u64) {
        let (width, range) = (self.width(), self.small_range());
        (Node::point_range(width, &range), values_of(&range))
    }

    /// A PointList that conforms, and how many points it has.
    pub fn list(&mut self) -> (Node, u64) {
        let width = self.width();
        let indices = some_list(self.random, self.directions, width, 6);
        (Node::point_list(width, self.directions, &indices), (indices.len() / self.directions) as u64)
    }

    /// A range or a list that conforms, and how many points it has.
    pub fn points(&mut self) -> (Node, u64) {
        if self.random.one_in(2) {
            self.range()
        } else {
            self.list()
        }
    }

    /// A flow array of these dimensions.
    pub fn array(&mut self, name: &str, dimensions: &[u64]) -> Node {
        let data_type = *self.random.pick(&["R4", "R8", "I4", "I8"]);
        let mut array = Node::new(name, "DataArray_t", data_type, &[], Vec::new());
        array.reshape(dimensions);
        array
    }

    /// A Rind and a GridLocation, each now and then.
    pub fn beside(&mut self) -> Beside {
        let numbers = self.image.nodes[self.zone].numbers();
        let (mut nodes, mut core) = (Vec::new(), &numbers[..self.directions]);
        if self.random.one_in(3) {
            let location = *self.random.pick(&["Vertex", "CellCenter"]);
            nodes.push(Node::text("GridLocation", "GridLocation_t", location));
            if location == "CellCenter" {
                core = &numbers[self.directions..2 * self.directions];
            }
        }
        let mut sizes: Vec<u64> = core.iter().map(|&n| n as u64).collect();
        if self.random.one_in(3) {
            let rind = self.rind();
            sizes.iter_mut().zip(rind.numbers().chunks(2)).for_each(|(size, planes)| {
                *size += (planes[0] + planes[1]) as u64;
            });
            nodes.push(rind);
        }
        Beside { nodes, sizes }
    }

    /// A Rind of one or two planes.
    pub fn rind(&mut self) -> Node {
        let mut numbers: Vec<i64> = (0..2 * self.directions).map(|_| self.random.between(0, 1)).collect();
        numbers[self.random.index(2 * self.directions)] = 1;
        Node::integers("Rind", "Rind_t", 4, &[numbers.len() as u64], &numbers)
    }

    /// An array of the zone's DataSize, where that is not too large.
    pub fn zone_array(&mut self, name: &str, beside: &Beside) -> Option<Node> {
        fits(&beside.sizes).then(|| self.array(name, &beside.sizes))
    }

    /// The zone's VertexSize.
    pub fn vertex_sizes(&self) -> Vec<u64> {
        let numbers = self.image.nodes[self.zone].numbers();
        numbers[..self.directions].iter().map(|&n| n as u64).collect()
    }

    /// A coordinate of these sizes, where they are not too large.
    pub fn coordinate(&mut self, sizes: &[u64]) -> Option<Node> {
        let mut array = self.array("CoordinateX", if fits(sizes) { sizes } else { &[1] });
        array.data_type = if array.width() == 8 { *b"R8" } else { *b"R4" };
        fits(sizes).then_some(array)
    }

    /// Adds a flow solution with these children in their order, and what stands beside them at any place among them;
    /// answers its number.
    pub fn flow(&mut self, nodes: Vec<Node>, beside: Beside) -> usize {
        self.add("FlowSolution_t", nodes, beside.nodes)
    }

    /// Adds a parent with a label and its children; see `flow`.
    pub fn add(&mut self, label: &str, mut nodes: Vec<Node>, beside: Vec<Node>) -> usize {
        for node in beside {
            nodes.insert(self.random.index(nodes.len() + 1), node);
        }
        let name = *self.random.pick(&["Wall", "Inlet", "Probes"]);
        nodes.insert(0, Node::empty(name, label));
        self.scatter(self.zone, nodes)
    }

    /// Adds a node under a parent and the others under that node, in their order, each at any place behind the parent;
    /// answers the first one's number. The zone keeps its number.
    pub fn scatter(&mut self, parent: usize, nodes: Vec<Node>) -> usize {
        scatter(self.image, self.random, parent, parent.max(self.zone), nodes)
    }

    /// Refused by a rule at the child of a node with this name.
    pub fn refused(&self, rule: u32, parent: usize, name: &str) -> Option<Answer> {
        Some(Answer::at_node(rule, self.image.child(parent, name)?))
    }
}
