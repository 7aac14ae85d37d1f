//! Parts of odd images: bases, zones and sections, laid out by the reference's builder; lists of element numbers.

use reference::build::{Image, Node};
use reference::cases::beginning;
use reference::random::Random;

pub const TRI_3: i64 = 5;
pub const NGON_N: i64 = 22;
pub const NFACE_N: i64 = 23;

/// The most nodes that an image may have.
pub const MAX_NODES: usize = 4_096;

/// How far apart the first numbers of sections are whose ranges do not touch; those of 1,022 sections stay below 2^31.
pub const APART: i64 = 2_000_000;

/// The nodes of a triangle.
const TRIANGLE: [i64; 3] = [1, 2, 3];

/// Numbers from 1 on, each by `step` above the one before it.
pub fn rising(count: i64, step: i64) -> Vec<i64> {
    (0..count).map(|k| 1 + k * step).collect()
}

/// The same numbers, the greatest first.
pub fn falling(count: i64, step: i64) -> Vec<i64> {
    rising(count, step).into_iter().rev().collect()
}

/// References to two faces in turn, each with either sign.
pub fn in_turn(count: usize, [a, b]: [i64; 2]) -> Vec<i64> {
    [a, b, -a, -b].into_iter().cycle().take(count).collect()
}

/// References to faces at random, with either sign.
pub fn at_random(random: &mut Random, count: usize, faces: &[i64]) -> Vec<i64> {
    (0..count).map(|_| *random.pick(faces) * *random.pick(&[1, -1])).collect()
}

/// An image with a base and nothing in it yet.
pub fn with_base() -> (Image, usize) {
    let mut image = beginning();
    let base = image.add(0, Node::integers("Base", "CGNSBase_t", 4, &[2], &[3, 3]));
    (image, base)
}

/// An image with an unstructured zone.
pub fn with_zone() -> (Image, usize) {
    let (mut image, base) = with_base();
    let zone = add_zone(&mut image, base);
    (image, zone)
}

/// Adds an unstructured zone.
pub fn add_zone(image: &mut Image, base: usize) -> usize {
    let zone = add_bare_zone(image, base);
    add_zone_type(image, zone, "Unstructured");
    zone
}

/// Adds an unstructured zone of three vertices, without its ZoneType.
pub fn add_bare_zone(image: &mut Image, base: usize) -> usize {
    let name = format!("Zone{}", image.nodes.len());
    image.add(base, Node::integers(&name, "Zone_t", 4, &[1, 3], &[3, 1, 0]))
}

pub fn add_zone_type(image: &mut Image, zone: usize, text: &str) {
    image.add(zone, Node::text("ZoneType", "ZoneType_t", text));
}

/// A section of elements of one size.
pub struct Section<'a> {
    pub element_type: i64,
    /// The number of the first element.
    pub first: i64,
    /// How many references each element has.
    pub size: usize,
    pub references: &'a [i64],
}

impl Section<'_> {
    /// A section of one element.
    pub fn of_one(element_type: i64, number: i64, references: &[i64]) -> Section<'_> {
        Section { element_type, first: number, size: references.len(), references }
    }

    /// A section of one triangle.
    pub fn triangle(element_type: i64, number: i64) -> Section<'static> {
        Section::of_one(element_type, number, &TRIANGLE)
    }

    /// Adds the section to a zone.
    pub fn add(&self, image: &mut Image, zone: usize) -> usize {
        let section = self.add_bare(image, zone);
        self.add_children(image, section);
        section
    }

    /// Adds the section without its children.
    pub fn add_bare(&self, image: &mut Image, zone: usize) -> usize {
        let name = format!("Section{}", image.nodes.len());
        image.add(zone, Node::integers(&name, "Elements_t", 4, &[2], &[self.element_type, 0]))
    }

    /// Adds the range, the start offsets of a type that has them, and the connectivity.
    pub fn add_children(&self, image: &mut Image, section: usize) {
        let count = (self.references.len() / self.size) as i64;
        let range = [self.first, self.first + count - 1];
        image.add(section, Node::integers("ElementRange", "IndexRange_t", 4, &[2], &range));
        if matches!(self.element_type, NGON_N | NFACE_N) {
            let offsets: Vec<i64> = (0..=count).map(|k| k * self.size as i64).collect();
            image.add(section, Node::list("ElementStartOffset", 4, &offsets));
        }
        image.add(section, Node::list("ElementConnectivity", 4, self.references));
    }
}

/// Adds a section of one triangle for each number.
pub fn add_triangles(image: &mut Image, zone: usize, element_type: i64, numbers: &[i64]) -> Vec<usize> {
    numbers.iter().map(|&number| Section::triangle(element_type, number).add(image, zone)).collect()
}

/// Adds a section of so many triangular faces.
pub fn add_faces(image: &mut Image, zone: usize, first: i64, count: usize) {
    let references = TRIANGLE.repeat(count);
    Section { element_type: NGON_N, first, size: TRIANGLE.len(), references: &references }.add(image, zone);
}

/// Puts every ZoneType and all children of sections behind the other nodes.
pub fn children_last(mut image: Image) -> Image {
    let is_last = |&node: &usize| {
        let in_section = image.parent(node).is_some_and(|parent| image.nodes[parent].is_labelled("Elements_t"));
        in_section || image.nodes[node].is_labelled("ZoneType_t")
    };
    let (last, mut order): (Vec<usize>, Vec<usize>) = (0..image.nodes.len()).partition(is_last);
    order.extend(last);
    image.reorder(&order);
    image
}
