//! A zone that a case adds to a lawful image, and its sections.

use super::pick::{change, is_validated, scatter, some_node};
use super::Answer;
use crate::build::{Image, Node};
use crate::elements::{NFACE_N, NGON_N};
use crate::lawful::{CellUses, Deck};
use crate::random::Random;
use crate::sizes::MAX_NUMBER;
use crate::text::padded;

/// An unstructured zone, and what its next sections are made of. The elements of a section are lists of references.
pub struct Site<'a> {
    pub image: &'a mut Image,
    pub random: &'a mut Random,
    zone: usize,
    pub vertices: i64,
    /// The number of the first element of the next section.
    pub next_element: i64,
    deck: Deck,
}

/// A base of this CellDimension: one that the image has, or a new one at any place.
fn base(image: &mut Image, random: &mut Random, cell_dimension: i64) -> usize {
    let known = some_node(image, random, |image, n| {
        n > 0
            && image.nodes[n].is_labelled("CGNSBase_t")
            && is_validated(image, n)
            && image.nodes[n].numbers()[0] == cell_dimension
    });
    if let Some(base) = known.filter(|_| random.one_in(2)) {
        return base;
    }
    let name = ["Line", "Surface", "Volume"][cell_dimension as usize - 1];
    let physical = random.between(cell_dimension, 3);
    let base = Node::integers(name, "CGNSBase_t", 4, &[2], &[cell_dimension, physical]);
    scatter(image, random, 0, 0, vec![base])
}

impl<'a> Site<'a> {
    /// A new zone in a base of this CellDimension.
    pub fn new(image: &'a mut Image, random: &'a mut Random, cell_dimension: i64) -> Site<'a> {
        let base = base(image, random, cell_dimension);
        let vertices = random.between(1, 6);
        let zone = Node::integers("Mesh", "Zone_t", *random.pick(&[4, 8]), &[1, 3], &[vertices, 1, 0]);
        let zone_type = Node::text("ZoneType", "ZoneType_t", "Unstructured");
        let zone = scatter(image, random, base, base, vec![zone, zone_type]);
        let next_element = *random.pick(&[1, 1, 7, MAX_NUMBER - 99]);
        let deck = Deck::new(random, Vec::new(), false);
        Site { image, random, zone, vertices, next_element, deck }
    }

    /// Faces of these sizes, with any nodes of the zone.
    pub fn faces(&mut self, sizes: &[i64]) -> Vec<Vec<i64>> {
        let face = |size: &i64| (0..*size).map(|_| self.random.between(1, self.vertices)).collect();
        sizes.iter().map(face).collect()
    }

    /// Cells of these sizes, with any faces of the zone.
    pub fn cells(&mut self, sizes: &[i64]) -> Vec<Vec<i64>> {
        sizes.iter().map(|&size| self.deck.take(self.random, size as usize)).collect()
    }

    /// A number that is no node of the zone.
    pub fn bad_node(&mut self) -> i64 {
        *self.random.pick(&[0, -1, self.vertices + 1, -self.vertices, MAX_NUMBER, i64::from(i32::MIN)])
    }

    /// A number that is no face of the zone, and the rule that it breaks in a section that is added next: zero, that of
    /// its first element, one behind all, or one that 4 bytes cannot negate.
    pub fn bad_face(&mut self) -> (i64, u32) {
        let next = self.next_element;
        *self.random.pick(&[(0, 35), (next, 37), (-next - 9, 36), (i64::from(i32::MIN), 36)])
    }

    /// Adds a section of these faces, which are those of all cells that come after it.
    pub fn add_faces(&mut self, faces: &[Vec<i64>]) {
        let first = self.next_element;
        self.add("Faces", NGON_N, faces);
        self.deck = Deck::new(self.random, (first..self.next_element).collect(), true);
    }

    /// Adds a section of faces of these sizes.
    pub fn add_faces_of(&mut self, sizes: &[i64]) {
        let faces = self.faces(sizes);
        self.add_faces(&faces);
    }

    /// Adds a section of these cells.
    pub fn add_cells(&mut self, cells: &[Vec<i64>]) {
        self.add("Cells", NFACE_N, cells);
    }

    /// Adds sections of faces and of cells of these sizes.
    pub fn add_mesh(&mut self, face_sizes: &[i64], cell_sizes: &[i64]) {
        self.add_faces_of(face_sizes);
        let cells = self.cells(cell_sizes);
        self.add_cells(&cells);
    }

    /// Adds a section with its children in any order, each at any place behind the zone and the section.
    pub fn add(&mut self, name: &str, element_type: i64, elements: &[Vec<i64>]) {
        self.add_after(self.zone, name, element_type, elements);
    }

    /// The same with all of these nodes behind another section.
    pub fn add_behind(&mut self, before: &str, name: &str, element_type: i64, elements: &[Vec<i64>]) -> Option<()> {
        self.add_after(self.section(before)?, name, element_type, elements);
        Some(())
    }

    /// The same behind a node.
    fn add_after(&mut self, after: usize, name: &str, element_type: i64, elements: &[Vec<i64>]) {
        let first = self.next_element;
        self.next_element += elements.len() as i64;
        let [of_range, of_offsets, of_connectivity] = [(); 3].map(|()| self.width());
        let range = [first, self.next_element - 1];
        let sizes: Vec<i64> = elements.iter().map(|element| element.len() as i64).collect();
        let mut nodes = vec![
            Node::integers("ElementRange", "IndexRange_t", of_range, &[2], &range),
            Node::start_offsets(of_offsets, &sizes),
            Node::list("ElementConnectivity", of_connectivity, &elements.concat()),
        ];
        self.random.shuffle(&mut nodes);
        nodes.insert(0, Node::integers(name, "Elements_t", 4, &[2], &[element_type, 0]));
        scatter(self.image, self.random, self.zone, after, nodes);
    }

    /// Another zone of the same base, with as many vertices, behind this one; its elements begin at a number.
    pub fn beside(&mut self, first_element: i64) -> Site<'_> {
        let base = self.image.nodes[self.zone].parent as usize;
        let zone = Node { name: padded(b"Mesh beside"), ..self.image.nodes[self.zone].clone() };
        let zone_type = Node::text("ZoneType", "ZoneType_t", "Unstructured");
        let zone = scatter(self.image, self.random, base, self.zone, vec![zone, zone_type]);
        let deck = Deck::new(self.random, Vec::new(), false);
        let (image, random, vertices) = (&mut *self.image, &mut *self.random, self.vertices);
        Site { image, random, zone, vertices, next_element: first_element, deck }
    }

    /// 4 or 8.
    pub fn width(&mut self) -> usize {
        *self.random.pick(&[4, 8])
    }

    /// Gives the zone another number of vertices.
    pub fn set_vertices(&mut self, vertices: i64) {
        self.vertices = vertices;
        change(self.image, self.zone, 0, vertices);
    }

    /// The cells of the zone, and which of them use which face.
    pub fn cell_uses(&self) -> CellUses {
        CellUses::of_zone(self.image, self.zone)
    }

    /// Adds a node to a section, at any place behind it.
    pub fn add_to(&mut self, section: &str, node: Node) -> Option<()> {
        let section = self.section(section)?;
        scatter(self.image, self.random, section, section, vec![node]);
        Some(())
    }

    /// The number of a section.
    pub fn section(&self, name: &str) -> Option<usize> {
        self.image.child(self.zone, name)
    }

    /// The number of a child of a section.
    pub fn child_of(&self, section: &str, name: &str) -> Option<usize> {
        self.image.child(self.section(section)?, name)
    }

    /// Breaks one of rules 29 to 32 at a section with start offsets; answers which.
    pub fn break_offsets(&mut self, section: &str) -> Option<u32> {
        let offsets = self.child_of(section, "ElementStartOffset")?;
        let connectivity = self.child_of(section, "ElementConnectivity")?;
        let rule = 29 + self.random.below(4) as u32;
        match rule {
            29 => {
                let mut numbers = self.image.nodes[offsets].numbers();
                numbers.pop();
                self.image.nodes[offsets].set_list(&numbers);
            }
            30 => change(self.image, offsets, 0, 1),
            31 => change(self.image, offsets, 1, 0),
            _ => {
                let mut numbers = self.image.nodes[connectivity].numbers();
                numbers.push(1);
                self.image.nodes[connectivity].set_list(&numbers);
            }
        }
        Some(rule)
    }

    /// Refused by a rule at a section.
    pub fn refused(&self, rule: u32, name: &str) -> Option<Answer> {
        self.refused_at(rule, name, 0)
    }

    /// Refused by a rule at an entry of a section's connectivity, counted from 1.
    pub fn refused_at(&self, rule: u32, name: &str, entry: u64) -> Option<Answer> {
        Some(Answer::at_entry(rule, self.section(name)?, entry))
    }

    /// Refused by the rule of one of two sections, whichever has the lower number; each with its entry, or 0.
    pub fn refused_at_lower(&self, one: (u32, &str, u64), other: (u32, &str, u64)) -> Option<Answer> {
        let (rule, name, entry) = if self.section(one.1)? < self.section(other.1)? { one } else { other };
        self.refused_at(rule, name, entry)
    }
}
