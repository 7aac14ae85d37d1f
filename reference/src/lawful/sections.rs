//! Element sections of an unstructured zone.

use super::deck::Deck;
use super::mixed::{node_reference, some_types, typed_element};
use super::Maker;
use super::STORING_TYPES;
use crate::build::Node;
use crate::elements::{least_size, shape_of, Shape, MIXED, NFACE_N, NGON_N};
use crate::random::Random;
use crate::sizes::MAX_NUMBER;

/// The element types that have a fixed number of nodes.
pub const FIXED_TYPES: [i64; 19] = [2, 3, 4, 5, 6, 7, 8, 9, 10, 11, 12, 13, 14, 15, 16, 17, 18, 19, 21];

/// A section before its nodes are made.
#[derive(Clone, Debug)]
struct Plan {
    element_type: i64,
    count: i64,
    first: i64,
    /// The fewest references of an element.
    least: i64,
}

impl Plan {
    /// Whether it has the type.
    fn is(&self, element_type: i64) -> bool {
        self.element_type == element_type
    }
}

impl Maker<'_> {
    /// Sections of a zone, with ranges that do not meet, in any order.
    pub(super) fn sections(&mut self, zone: usize, cell_dimension: i64, vertices: i64) {
        let mut plans: Vec<Plan> =
            self.section_types().into_iter().map(|element_type| self.plan(element_type, cell_dimension)).collect();
        plans.truncate(self.room() / 4);
        if !plans.iter().any(|plan| plan.is(NGON_N)) {
            plans.retain(|plan| !plan.is(NFACE_N));
        }
        let sparing = !self.random.one_in(3);
        let covering = sparing && self.random.one_in(2);
        if sparing {
            spare_faces(&mut plans);
        }
        if covering {
            drop_faces(&mut plans);
        }
        self.place_ranges(&mut plans);
        self.random.shuffle(&mut plans);
        let faces = plans.iter().filter(|plan| plan.is(NGON_N)).flat_map(|plan| plan.first..plan.first + plan.count);
        let mut deck = Deck::new(self.random, faces.collect(), sparing);
        if covering {
            deck = deck.covering();
        }
        for plan in plans {
            self.section(zone, &plan, vertices, &mut deck);
        }
        self.parents(zone);
    }

    /// A section of a type, its range not yet known.
    fn plan(&mut self, element_type: i64, cell_dimension: i64) -> Plan {
        let least = least_size(element_type, cell_dimension as u64).unwrap_or(1) as i64;
        Plan { element_type, count: self.section_count(element_type), first: 0, least }
    }

    /// The element types of a zone's sections.
    fn section_types(&mut self) -> Vec<i64> {
        let fixed = |random: &mut Random| *random.pick(&FIXED_TYPES);
        match self.random.below(13) {
            0 => vec![],
            1 => vec![fixed(self.random)],
            2 => vec![fixed(self.random), fixed(self.random)],
            3 => vec![NGON_N],
            4 | 5 => vec![NGON_N, NFACE_N],
            6 => vec![NGON_N, fixed(self.random), NFACE_N],
            7 => vec![NGON_N, NGON_N, NFACE_N],
            8 => vec![NGON_N, NFACE_N, NFACE_N],
            9 => vec![MIXED],
            10 => vec![MIXED, fixed(self.random)],
            11 => vec![MIXED, MIXED],
            _ => vec![MIXED, NGON_N, NFACE_N],
        }
    }

    /// How many elements a section of the type gets.
    fn section_count(&mut self, element_type: i64) -> i64 {
        let most = match shape_of(element_type) {
            Some(Shape::Fixed(nodes)) if nodes > 8 => (self.limits.elements / 3).max(1),
            Some(Shape::Mixed) => (self.limits.elements / 3).max(4),
            _ => self.limits.elements,
        };
        self.random.between(1, most)
    }

    /// Gives the plans ranges, one above the other, with gaps now and then.
    fn place_ranges(&mut self, plans: &mut [Plan]) {
        let total: i64 = plans.iter().map(|plan| plan.count).sum();
        let mut next = match self.random.below(6) {
            0 => MAX_NUMBER - total + 1,
            1 => self.random.between(1, 1_000_000),
            _ => 1,
        };
        let gaps = next < 2_000_000 && self.random.one_in(3);
        for plan in plans.iter_mut() {
            if gaps {
                next += self.random.between(0, 3);
            }
            plan.first = next;
            next += plan.count;
        }
    }

    /// One section with its children; cells take their faces from the deck.
    fn section(&mut self, zone: usize, plan: &Plan, vertices: i64, deck: &mut Deck) {
        let name = *self.random.pick(&["Faces", "Cells", "Elem", "Section 1"]);
        let boundary = *self.random.pick(&[0, 0, 1, MAX_NUMBER]);
        let own = Node::integers(name, "Elements_t", 4, &[2], &[plan.element_type, boundary]);
        let section = self.add(zone, own);
        let (width, range) = (self.width(), [plan.first, plan.first + plan.count - 1]);
        self.add(section, Node::integers("ElementRange", "IndexRange_t", width, &[2], &range));
        let elements = self.elements(plan, vertices, deck);
        let sizes: Vec<i64> = elements.iter().map(|element| element.len() as i64).collect();
        let width = self.width();
        self.add(section, Node::list("ElementConnectivity", width, &elements.concat()));
        self.section_extras(section, plan, &sizes);
    }

    /// The elements of a section, each as its connectivity entries.
    fn elements(&mut self, plan: &Plan, vertices: i64, deck: &mut Deck) -> Vec<Vec<i64>> {
        if plan.is(MIXED) {
            let types = some_types(self.random, plan.count as usize);
            return types.into_iter().map(|own_type| typed_element(self.random, own_type, vertices)).collect();
        }
        let sizes = self.element_sizes(plan, deck.unused());
        if plan.is(NFACE_N) {
            let mut faces = deck.take(self.random, sizes.iter().sum::<i64>() as usize).into_iter();
            return sizes.iter().map(|&size| faces.by_ref().take(size as usize).collect()).collect();
        }
        let random = &mut *self.random;
        sizes.iter().map(|&size| (0..size).map(|_| node_reference(random, vertices)).collect()).collect()
    }

    /// How many references each element of a section has: those of cells no more than the unused ones of a deck, where
    /// these are enough.
    fn element_sizes(&mut self, plan: &Plan, unused: usize) -> Vec<i64> {
        let count = plan.count;
        if let Some(Shape::Fixed(nodes)) = shape_of(plan.element_type) {
            return vec![nodes as i64; count as usize];
        }
        let (usual, each) = ((plan.least + 2).max(4), unused as i64 / count);
        let most = if plan.is(NFACE_N) && each >= plan.least { each.min(usual) } else { usual };
        (0..count).map(|_| self.random.between(plan.least, most)).collect()
    }

    /// Start offsets, where they are needed or now and then, and other children of a section. An array named
    /// ParentElements is an ordinary one where the elements are no faces.
    fn section_extras(&mut self, section: usize, plan: &Plan, sizes: &[i64]) {
        let width = self.width();
        if shape_of(plan.element_type).is_some_and(Shape::has_offsets) {
            self.add(section, Node::start_offsets(width, sizes));
        } else if self.chance(6, 1) {
            let offsets: Vec<i64> = (0..1 + self.random.below(3)).map(|_| self.random.between(-2, 9)).collect();
            self.add(section, Node::list("ElementStartOffset", width, &offsets));
        }
        if self.chance(10, 1) {
            self.add(section, Node::integers("Rind", "Rind_t", 4, &[2], &[0, 3]));
        }
        if !plan.is(NGON_N) && self.chance(10, 1) {
            let data_type = *self.random.pick(&STORING_TYPES);
            let mut array = Node::new("ParentElements", "DataArray_t", data_type, &[], Vec::new());
            array.reshape(&[plan.count as u64, 2]);
            array.data = self.bytes(array.data.len());
            self.add(section, array);
        }
        self.documents(section, 14);
    }
}

/// Lets the cells be so few, and the faces so many, that no cell has to use a face twice with one sign.
fn spare_faces(plans: &mut [Plan]) {
    let needed: i64 = plans.iter().filter(|plan| plan.is(NFACE_N)).map(|plan| plan.least).sum();
    if let Some(faces) = plans.iter_mut().find(|plan| plan.is(NGON_N)) {
        faces.count = faces.count.max((needed + 1) / 2);
    }
    let uses: i64 = plans.iter().filter(|plan| plan.is(NGON_N)).map(|plan| 2 * plan.count).sum();
    for plan in plans.iter_mut().filter(|plan| plan.is(NFACE_N)) {
        plan.count = plan.count.min(uses / needed);
    }
}

/// Lets the faces be so few that the cells use all of them, as far as each section has one.
fn drop_faces(plans: &mut [Plan]) {
    let mut uses: i64 = plans.iter().filter(|plan| plan.is(NFACE_N)).map(|plan| plan.least * plan.count).sum();
    if uses > 0 {
        for plan in plans.iter_mut().filter(|plan| plan.is(NGON_N)) {
            plan.count = plan.count.min(uses).max(1);
            uses -= plan.count;
        }
    }
}
