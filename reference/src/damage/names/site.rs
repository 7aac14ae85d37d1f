//! A family of siblings that a case adds to a lawful image, and the node that it stands under.

use super::texts::KINDS;
use super::Answer;
use crate::build::{Image, Node};
use crate::damage::pick::{any_node, is_validated, labelled, plain_node, scatter, some_node};
use crate::labels::LABELS;
use crate::lawful::{chain, lawful, SizeClass};
use crate::random::Random;
use crate::text::Text;

/// Labels that are not known.
pub const FOREIGN: &[&str] = &["Family_t", "ZoneBC_t", "Zone", "zone_t"];

/// Labels that stand in most places.
const DOCUMENTS: &[&str] = &["UserDefinedData_t", "UserDefinedData_t", "Descriptor_t"];

/// The node that a family is added to, and the labels that its members have.
pub struct Place {
    pub parent: usize,
    pub labels: Vec<&'static str>,
}

/// The image that a case adds its families to.
pub struct Site<'a> {
    pub image: &'a mut Image,
    pub random: &'a mut Random,
    pub class: SizeClass,
}

/// The labels that validated children of a node have under any name and any number of times; none for other nodes.
fn free_labels(image: &Image, node: usize) -> &'static [&'static str] {
    const OF_LABELS: [(&str, &[&str]); 6] = [
        ("CGNSBase_t", DOCUMENTS),
        ("Zone_t", &["GridCoordinates_t", "FlowSolution_t", "UserDefinedData_t", "Descriptor_t"]),
        ("GridCoordinates_t", DOCUMENTS),
        ("FlowSolution_t", DOCUMENTS),
        ("Elements_t", DOCUMENTS),
        ("DataArray_t", &["Descriptor_t"]),
    ];
    if node == 0 {
        return &["CGNSBase_t"];
    }
    let row = OF_LABELS.iter().find(|(label, _)| image.nodes[node].is_labelled(label));
    row.filter(|_| is_validated(image, node)).map_or(&[], |(_, labels)| labels)
}

impl Site<'_> {
    /// How many members a short family has; nothing where the image has no room for two and their parent.
    pub fn few(&mut self) -> Option<usize> {
        let most = match self.class {
            SizeClass::Small => 8,
            SizeClass::Medium => 40,
            SizeClass::Large => 300,
        };
        let room = self.class.room(self.image).saturating_sub(1).min(most);
        (room >= 2).then(|| 2 + self.random.index(room - 1))
    }

    /// How many members a long family has.
    pub fn many(&mut self) -> usize {
        let (least, most) = match self.class {
            SizeClass::Small => (12, 30),
            SizeClass::Medium => (100, 400),
            SizeClass::Large => (1_000, 4_000),
        };
        self.random.between(least, most) as usize
    }

    /// Puts a short lawful image in the place of one that has no room for so many more nodes.
    pub fn make_room(&mut self, nodes: usize) {
        if self.class.room(self.image) <= nodes {
            let depth = 1 + self.random.index(2);
            *self.image = match self.class {
                SizeClass::Small => chain(self.random, depth),
                _ => lawful(self.random, SizeClass::Small),
            };
        }
    }

    /// Names of any kind.
    pub fn any_names(&mut self, count: usize) -> Vec<Text> {
        let names = *self.random.pick(&KINDS);
        names(self.random, count)
    }

    /// A place whose children are validated.
    pub fn validated_place(&mut self) -> Option<Place> {
        let parent = some_node(self.image, self.random, |image, n| !free_labels(image, n).is_empty())?;
        Some(Place { parent, labels: free_labels(self.image, parent).to_vec() })
    }

    /// A place whose children have unknown labels.
    pub fn foreign_place(&mut self) -> Place {
        Place { parent: any_node(self.image, self.random), labels: FOREIGN.to_vec() }
    }

    /// A place whose children are skipped whatever their labels: a new node below a base.
    pub fn skipped_place(&mut self) -> Option<Place> {
        let base = labelled(self.image, self.random, "CGNSBase_t")?;
        let label = *self.random.pick(&["UserDefinedData_t", "Family_t"]);
        let parent = scatter(self.image, self.random, base, base, vec![Node::empty("Skipped nodes", label)]);
        let labels = LABELS.iter().map(|(_, label)| *label).chain(FOREIGN.iter().copied());
        Some(Place { parent, labels: labels.collect() })
    }

    /// Any place of the three kinds.
    pub fn any_place(&mut self) -> Option<Place> {
        match self.random.below(3) {
            0 => self.validated_place(),
            1 => Some(self.foreign_place()),
            _ => self.skipped_place(),
        }
    }

    /// Nodes of these names for a place, but for names that it has already; two at least.
    pub fn members(&mut self, place: &Place, names: &[Text]) -> Option<Vec<Node>> {
        let known = self.image.children(place.parent);
        let new = |name: &&Text| known.iter().all(|&n| self.image.nodes[n].name != **name);
        let member = |name: &Text| {
            let label = *self.random.pick(&place.labels);
            Node { name: *name, ..plain_node(self.random, "", label) }
        };
        let nodes: Vec<Node> = names.iter().filter(new).map(member).collect();
        (nodes.len() >= 2).then_some(nodes)
    }

    /// Adds nodes under a parent, in their order, together or each at any place behind the parent; answers their numbers.
    pub fn add(&mut self, parent: usize, nodes: Vec<Node>) -> Vec<usize> {
        let (old, least) = (self.image.nodes.len(), parent + 1);
        let together = self.random.one_in(3).then(|| least + self.random.index(old + 1 - least));
        let mut place = || together.unwrap_or_else(|| least + self.random.index(old + 1 - least));
        let mut places: Vec<usize> = nodes.iter().map(|_| place()).collect();
        places.sort_unstable();
        let numbers = places.iter().enumerate().map(|(k, place)| place + k).collect();
        let mut new = (old..).zip(places).peekable();
        let mut order = Vec::new();
        for n in 0..=old {
            while let Some((number, _)) = new.next_if(|&(_, place)| place == n) {
                order.push(number);
            }
            order.extend((n < old).then_some(n));
        }
        for node in nodes {
            self.image.add(parent, node);
        }
        self.image.reorder(&order);
        numbers
    }

    /// Adds a family with these names at a place.
    pub fn accepted(&mut self, place: &Place, names: &[Text]) -> Option<Answer> {
        let nodes = self.members(place, names)?;
        self.add(place.parent, nodes);
        Some(Answer::Accepted)
    }
}
