//! Lawful images, made at random: structured and unstructured zones, all element types, parents of faces, rind, flow
//! solutions with and without ranges and lists of points, foreign subtrees, nodes in any lawful order.

mod deck;
mod foreign;
mod mixed;
mod order;
mod parents;
mod points;
mod sections;
mod zones;

use crate::build::{Image, Node};
use crate::header::MAX_NODES;
use crate::labels::LABELS;
use crate::random::Random;
use crate::records::Record;
use crate::text::padded;

/// How large the images of a run are.
#[derive(Clone, Copy, Debug, PartialEq, Eq)]
pub enum SizeClass {
    Small,
    Medium,
    Large,
}

impl SizeClass {
    /// The class that a word names.
    pub fn named(word: &str) -> Option<SizeClass> {
        match word {
            "small" => Some(SizeClass::Small),
            "medium" => Some(SizeClass::Medium),
            "large" => Some(SizeClass::Large),
            _ => None,
        }
    }

    /// Whether an image keeps within the bounds of the class: its nodes and its bytes.
    pub fn holds(self, image: &Image) -> bool {
        let limits = self.limits();
        image.nodes.len() <= limits.nodes && image.to_bytes().len() <= limits.bytes
    }

    /// Whether an image with a family of siblings keeps within the bounds of the class: its bytes, and rule 4.
    pub fn holds_family(self, image: &Image) -> bool {
        image.nodes.len() <= MAX_NODES as usize && image.to_bytes().len() <= self.limits().bytes
    }

    /// How many more empty nodes an image may have: in a small one within the bounds of the class, in another one within
    /// its bytes and rule 4.
    pub fn room(self, image: &Image) -> usize {
        let limits = self.limits();
        let nodes = if self == SizeClass::Small { limits.nodes } else { MAX_NODES as usize };
        let bytes = limits.bytes.saturating_sub(image.to_bytes().len());
        nodes.saturating_sub(image.nodes.len()).min(bytes / Record::SIZE)
    }

    /// The bounds of the class.
    fn limits(self) -> Limits {
        match self {
            SizeClass::Small => Limits { nodes: 25, values: 24, elements: 4, bytes: 3_200 },
            SizeClass::Medium => Limits { nodes: 120, values: 600, elements: 60, bytes: 40_000 },
            SizeClass::Large => Limits { nodes: 900, values: 20_000, elements: 4_000, bytes: 4_000_000 },
        }
    }
}

/// Bounds of an image: nodes, values of an array, elements of a section, bytes in all.
#[derive(Clone, Copy, Debug)]
struct Limits {
    nodes: usize,
    values: u64,
    elements: i64,
    bytes: usize,
}

pub use deck::Deck;
pub use foreign::STORING_TYPES;
pub use mixed::{some_types, typed_element, types_of_other_size, types_of_same_size};
pub use parents::CellUses;
pub use points::{some_list, some_range, values_of};
pub use sections::FIXED_TYPES;

/// A lawful image of a size class.
pub fn lawful(random: &mut Random, class: SizeClass) -> Image {
    let limits = class.limits();
    loop {
        let mut maker = Maker { random, image: Image::default(), limits };
        maker.file();
        maker.mix_order();
        let image = maker.image;
        if image.to_bytes().len() <= limits.bytes {
            return image;
        }
    }
}

/// A lawful image in which a chain of nodes below the base goes down to the depth.
pub fn chain(random: &mut Random, depth: usize) -> Image {
    let mut image = Image::with_root("r", "Root Node of HDF5 File");
    let mut node = image.add(0, Node::integers("B", "CGNSBase_t", 4, &[2], &[1, 1]));
    for k in 1..depth {
        let known = random.pick(&LABELS).1;
        let label = if k == 1 { "UserDefinedData_t" } else { known };
        node = image.add(node, Node::empty("down", label));
    }
    image
}

/// An image that is being made.
struct Maker<'r> {
    random: &'r mut Random,
    image: Image,
    limits: Limits,
}

impl Maker<'_> {
    /// How many more nodes there may be.
    fn room(&self) -> usize {
        self.limits.nodes.saturating_sub(self.image.nodes.len())
    }

    /// True once in `n` times, while there is room for `nodes` more nodes.
    fn chance(&mut self, n: u64, nodes: usize) -> bool {
        self.random.one_in(n) && self.room() >= nodes
    }

    /// Adds a node; its name is changed where a sibling has it.
    fn add(&mut self, parent: usize, mut node: Node) -> usize {
        let mut next = 1;
        while self.image.nodes.iter().skip(1).any(|n| n.parent == parent as u32 && n.name == node.name) {
            node.name = padded(format!("n{next} {}", self.random.below(1000)).as_bytes());
            next += 1;
        }
        self.image.add(parent, node)
    }

    /// 4 or 8.
    fn width(&mut self) -> usize {
        *self.random.pick(&[4, 4, 8])
    }

    /// Random bytes; numbers among them are small now and then.
    fn bytes(&mut self, length: usize) -> Vec<u8> {
        let few = self.random.one_in(2);
        (0..length).map(|k| if few && k % 4 > 0 { 0 } else { self.random.bits() as u8 }).collect()
    }

    /// A free name.
    fn name(&mut self) -> String {
        let names = [
            "Pressure",
            "a b  c",
            "X",
            "~",
            "ZoneType",
            "Rind",
            "PointRange",
            "PointList",
            "Density.1",
            "!\"#$%&'()*+,-.:;<=>?@[]^_`{|",
        ];
        let name = *self.random.pick(&names);
        if self.random.one_in(3) {
            format!("Name{}", self.random.below(90))
        } else {
            name.to_string()
        }
    }

    /// The root and everything below it.
    fn file(&mut self) {
        let (name, label) = *self.random.pick(&[
            ("HDF5 MotherNode", "Root Node of HDF5 File"),
            ("HDF5 MotherNode", "Root Node of HDF5 File"),
            ("root", "UserDefinedData_t"),
            ("Zone", "Zone_t"),
            ("x", "CGNSBase_t"),
        ]);
        self.image = Image::with_root(name, label);
        if !self.random.one_in(3) {
            let data = self.bytes(4);
            let version = Node::new("CGNSLibraryVersion", "CGNSLibraryVersion_t", "R4", &[1], data);
            self.add(0, version);
        }
        self.base();
        while self.chance(5, 4) {
            self.base();
        }
        if self.chance(6, 3) {
            self.foreign(0, 2);
        }
        if self.limits.nodes > 25 {
            while self.room() > 8 && !self.random.one_in(30) {
                self.base();
            }
        }
    }

    /// A base with its zones.
    fn base(&mut self) {
        let cell = *self.random.pick(&[1, 2, 3, 3]);
        let physical = self.random.between(cell, 3);
        let name = format!("Base{}", self.random.below(100));
        let base = self.add(0, Node::integers(&name, "CGNSBase_t", 4, &[2], &[cell, physical]));
        self.documents(base, 8);
        if !self.random.one_in(12) {
            self.zone(base, cell);
        }
        while self.chance(3, 5) {
            self.zone(base, cell);
        }
    }
}
