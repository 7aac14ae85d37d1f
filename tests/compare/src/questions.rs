//! What is asked about an image: every call, with node numbers past the end, buffers of fitting and other lengths, and
//! sections that no image gave.

use reference::elements::NGON_N;
use reference::labels::Label;
use reference::lawful::SizeClass;
use reference::random::Random;
use reference::table::Table;
use reference::validation::validated_tree;
use reference::{face_count, path, section_entries, Section, ENTRY_LENGTH};

use crate::comparison::{Comparison, SECTION};

/// Asks everything about an image; answers the sections of some of its zones, if it is accepted.
pub fn ask(comparison: &mut Comparison, random: &mut Random, class: SizeClass) -> Vec<Section> {
    let mut asker = Asker { comparison, random, limits: Limits::of(class) };
    asker.validations();
    asker.name_bytes();
    asker.about_table();
    let entries = asker.about_zones();
    asker.corners(&entries);
    asker.absurd_corners();
    entries
}

/// Asks about a part of the image that breaks off: validation, name bytes, and corners by the whole image's sections.
pub fn ask_part(comparison: &mut Comparison, random: &mut Random, entries: &[Section]) {
    let mut asker = Asker { comparison, random, limits: Limits::FEW };
    asker.validations();
    asker.name_bytes();
    asker.corners(&entries[..entries.len().min(8)]);
}

/// Asks about an image whose section was changed at an element: validation, and corners and types of this element and its
/// neighbours.
pub fn ask_changed(comparison: &mut Comparison, random: &mut Random, section: &Section, element: u64) {
    let mut asker = Asker { comparison, random, limits: Limits::FEW };
    asker.validations();
    let numbers = section.numbers();
    for element in element - 1..=element + 1 {
        for corner in 0..=28 {
            asker.corner(&numbers, element, corner);
        }
        asker.element(&numbers, element);
    }
}

/// Asks about an image in which a reference was changed: validation, and the calls that give its refusal.
pub fn ask_reference(comparison: &mut Comparison, random: &mut Random) {
    let mut asker = Asker { comparison, random, limits: Limits::FEW };
    asker.validations();
    let node = asker.random.below(9);
    asker.about_image_node(node);
}

/// Asks about an image in which a parent of a face was changed: validation, and the calls about parents of the zone.
pub fn ask_parents(comparison: &mut Comparison, random: &mut Random, section: &Section) {
    let zone = Table::read(comparison.image).map_or(0, |table| table.nodes[section.node as usize].parent as u64);
    let mut asker = Asker { comparison, random, limits: Limits::FEW };
    asker.validations();
    let inside = section.first + asker.random.below(section.last - section.first + 1);
    asker.parents(zone, inside);
    let faces = face_count(asker.comparison.image, zone).unwrap_or(4) as usize;
    let short = asker.random.index(faces);
    for bytes in [faces, faces + asker.random.index(9), short] {
        asker.parents_agree(zone, bytes);
    }
}

/// Asks about an image that a writer finished: validation, name bytes, and paths and values of some nodes.
pub fn ask_written(comparison: &mut Comparison, random: &mut Random) {
    let mut asker = Asker { comparison, random, limits: Limits::FEW };
    asker.validations();
    asker.name_bytes();
    asker.about_table();
}

/// How much is asked: nodes of either kind, zones, corner reads of a section, faces of a section.
struct Limits {
    nodes: usize,
    zones: usize,
    reads: u64,
    faces: u64,
}

impl Limits {
    const FEW: Limits = Limits { nodes: 2, zones: 1, reads: 12, faces: 2 };

    fn of(class: SizeClass) -> Limits {
        match class {
            SizeClass::Small => Limits { nodes: 30, zones: 6, reads: 60, faces: 8 },
            SizeClass::Medium => Limits { nodes: 16, zones: 6, reads: 60, faces: 8 },
            SizeClass::Large => Limits { nodes: 8, zones: 3, reads: 400, faces: 3 },
        }
    }
}

/// A section's numbers as bytes.
fn bytes_of(section: &[u64; ENTRY_LENGTH]) -> Vec<u8> {
    section.map(u64::to_le_bytes).concat()
}

struct Asker<'a, 'b> {
    comparison: &'a mut Comparison<'b>,
    random: &'a mut Random,
    limits: Limits,
}

impl Asker<'_, '_> {
    /// Rooms for an answer of so many words, in bytes: one too short, mostly by one byte, and one that is enough, mostly exact.
    fn answers(&mut self, words: usize) -> [usize; 2] {
        let exact = 8 * words;
        let less = if self.random.one_in(4) { self.random.index(exact) } else { exact - 1 };
        let enough = if self.random.one_in(8) { exact + 1 + self.random.index(12) } else { exact };
        [less, enough]
    }

    /// Rooms around a length: none, one too short, exact, longer.
    fn rooms(&mut self, length: usize) -> [usize; 4] {
        [0, length.saturating_sub(1), length, length + 1 + self.random.index(12)]
    }

    fn validations(&mut self) {
        for room in self.answers(6) {
            self.comparison.validate(room);
        }
    }

    fn name_bytes(&mut self) {
        for room in self.answers(3) {
            self.comparison.name_bytes(room);
        }
    }

    /// Some of the nodes up to a count, and some past it.
    fn nodes(&mut self, count: u64) -> Vec<u64> {
        let mut nodes: Vec<u64> = (0..count).collect();
        self.random.shuffle(&mut nodes);
        nodes.truncate(self.limits.nodes);
        nodes.extend([count, u64::MAX]);
        nodes.push(*self.random.pick(&[count + 1, u64::from(u32::MAX), 1 << 32, 1 << 63, u64::MAX / 84 + 1]));
        nodes
    }

    /// Paths and values, which need rules 1 to 18 alone.
    fn about_table(&mut self) {
        let table = Table::read(self.comparison.image).ok();
        let count = table.as_ref().map_or(2, |table| table.nodes.len() as u64);
        for node in self.nodes(count) {
            let length = path(self.comparison.image, node).map_or(3, |path| path.len());
            for bytes in self.rooms(length) {
                for room in self.answers(3) {
                    self.comparison.path(node, bytes, room);
                }
            }
            let known = table.as_ref().filter(|_| node < count);
            let values = known.map_or(1, |table| table.dimensions(node as usize).iter().product());
            self.values(node, values);
        }
    }

    /// Values of a node, the ends of the array among them, and numbers that wrap when multiplied by a width.
    fn values(&mut self, node: u64, count: u64) {
        let inside = 1 + self.random.below(count);
        let wrapping = *self.random.pick(&[(1 << 61) + 1, (1 << 62) + 1, (1 << 63) + inside]);
        let mut asked = vec![0, 1, inside, count, count + 1, wrapping, u64::MAX];
        asked.sort_unstable();
        asked.dedup();
        for k in asked {
            for room in self.answers(4) {
                self.comparison.array_value(node, k, room);
            }
        }
    }

    /// Sizes, sections and face usage; answers the sections of the zones asked about.
    fn about_zones(&mut self) -> Vec<Section> {
        let image = self.comparison.image;
        let Ok(tree) = validated_tree(image) else {
            for node in [self.random.below(20), u64::MAX] {
                self.about_image_node(node);
            }
            return Vec::new();
        };
        let mut zones: Vec<u64> = Vec::new();
        let mut others = self.nodes(tree.count() as u64);
        for node in 0..tree.count() {
            if tree.is_validated_as(node, Label::Zone) {
                zones.push(node as u64);
            } else if tree.is_validated_as(node, Label::DataArray) && others.len() < 2 * self.limits.nodes {
                others.push(node as u64);
            }
        }
        self.random.shuffle(&mut zones);
        zones.truncate(self.limits.zones);
        others.retain(|node| !zones.contains(node));
        for node in others {
            self.about_image_node(node);
        }
        zones.into_iter().flat_map(|zone| self.about_zone(zone)).collect()
    }

    /// The calls that validate first, of a node that is likely no zone.
    fn about_image_node(&mut self, node: u64) {
        self.data_size(node);
        let items = self.random.index(40);
        self.sections(node, items);
        self.face_usage(node, items);
        if self.random.one_in(2) {
            let face = self.random.below(9);
            self.parents(node, face);
            self.parents_agree(node, items);
        }
    }

    fn data_size(&mut self, node: u64) {
        for room in self.answers(6) {
            self.comparison.data_size(node, room);
        }
    }

    fn sections(&mut self, zone: u64, numbers: usize) {
        for room in self.answers(3) {
            self.comparison.sections(zone, numbers, room);
        }
    }

    fn face_usage(&mut self, zone: u64, bytes: usize) {
        for room in self.answers(4) {
            self.comparison.face_usage(zone, bytes, room);
        }
    }

    fn parents(&mut self, zone: u64, face: u64) {
        for room in self.answers(4) {
            self.comparison.parents(zone, face, room);
        }
    }

    fn parents_agree(&mut self, zone: u64, bytes: usize) {
        for room in self.answers(4) {
            self.comparison.parents_agree(zone, bytes, room);
        }
    }

    /// Parents of faces of a zone's sections, all where they are few, and of numbers that are no faces.
    fn parents_of_zone(&mut self, zone: u64, entries: &[Section]) {
        let mut asked = vec![0, u64::MAX];
        for entry in entries {
            let count = entry.last - entry.first + 1;
            let limit = if entry.element_type == NGON_N as u64 { self.limits.faces } else { 1 };
            for k in 0..limit.min(count) {
                asked.push(entry.first + if count <= limit { k } else { self.random.below(count) });
            }
            let odd = [entry.first - 1, entry.last + 1, entry.first + (1 << 32), entry.first.wrapping_neg()];
            asked.extend([entry.last, *self.random.pick(&odd)]);
        }
        asked.sort_unstable();
        asked.dedup();
        if asked.len() > 40 {
            self.random.shuffle(&mut asked);
            asked.truncate(40);
        }
        for face in asked {
            self.parents(zone, face);
        }
    }

    /// A zone with buffers of several lengths; answers its sections.
    fn about_zone(&mut self, zone: u64) -> Vec<Section> {
        let entries = section_entries(self.comparison.image, zone).unwrap_or_default();
        for numbers in self.rooms(ENTRY_LENGTH * entries.len()) {
            self.sections(zone, numbers);
        }
        let faces = entries.iter().filter(|e| e.element_type == 22).map(|e| e.last - e.first + 1).sum::<u64>();
        for bytes in self.rooms(faces as usize) {
            self.face_usage(zone, bytes);
            self.parents_agree(zone, bytes);
        }
        self.parents_of_zone(zone, &entries);
        self.data_size(zone);
        entries
    }

    /// Corners by sections of the image, by the same with a number changed, and with too little lent.
    fn corners(&mut self, entries: &[Section]) {
        for entry in entries {
            let numbers = entry.numbers();
            self.corners_of(entry, &numbers);
            for _ in 0..8 {
                let mut other = numbers;
                let place = self.random.index(ENTRY_LENGTH);
                other[place] = self.odd_number(numbers[place]);
                let inside = entry.first + self.random.below(entry.last - entry.first + 1);
                let element = *self.random.pick(&[entry.first, entry.last, inside, other[2], other[3]]);
                let corner = self.random.below(5);
                self.corner(&other, element, corner);
                self.element(&other, element);
                let element = self.odd_number(element);
                self.corner(&other, element, corner);
                self.element(&other, element);
            }
            self.as_other_types(entry);
            self.short(&bytes_of(&numbers), entry.first);
            self.short_numbers(&numbers, entry.first);
        }
    }

    /// Reads by the section with other types: its elements are then laid out in another way.
    fn as_other_types(&mut self, entry: &Section) {
        for element_type in [3, 5, 10, 20, 22, 23] {
            let other = Section { element_type, ..*entry }.numbers();
            let inside = entry.first + self.random.below(entry.last - entry.first + 1);
            for element in [entry.first, inside, entry.last] {
                let corner = 1 + self.random.below(4);
                self.corner(&other, element, corner);
                self.element(&other, element);
            }
        }
    }

    /// Reads with fewer or more bytes lent than the section or the number has.
    fn short(&mut self, section: &[u8], element: u64) {
        let few = self.random.index(SECTION);
        let longer = [section, &[0x55; 9]].concat();
        for section in [&section[..few], &section[..SECTION - 1], section, &longer[..SECTION + 1], &longer] {
            for room in self.answers(1) {
                self.comparison.read_corner(section, element, 1, room);
            }
        }
    }

    /// Reads of an element with fewer or more numbers lent than the section has, and with fewer bytes than the answer has.
    fn short_numbers(&mut self, section: &[u64; ENTRY_LENGTH], element: u64) {
        let few = self.random.index(ENTRY_LENGTH);
        let longer = [&section[..], &[0x55; 2]].concat();
        for section in [&section[..few], &section[..ENTRY_LENGTH - 1], section, &longer[..ENTRY_LENGTH + 1], &longer] {
            for room in self.answers(1) {
                self.comparison.read_element(section, element, 8, room);
                self.comparison.element_type(section, element, room);
            }
        }
    }

    /// One corner, with the room that it needs.
    fn corner(&mut self, section: &[u64; ENTRY_LENGTH], element: u64, corner: u64) {
        self.comparison.read_corner(&bytes_of(section), element, corner, 8);
    }

    /// All corners of an element, with room for about as many as elements mostly have, or for all of any element asked about; and
    /// its type.
    fn element(&mut self, section: &[u64; ENTRY_LENGTH], element: u64) {
        let numbers = if self.random.one_in(4) { 40 } else { self.random.index(10) };
        self.comparison.read_element(section, element, numbers, 8);
        self.comparison.element_type(section, element, 8);
    }

    /// Corners of a section: its ends, all elements where they are few, else some.
    fn corners_of(&mut self, entry: &Section, numbers: &[u64; ENTRY_LENGTH]) {
        for element in [0, entry.first - 1, entry.last + 1, u64::MAX] {
            self.corner(numbers, element, 1);
            self.element(numbers, element);
        }
        for corner in [0, 28, 1 << 32, 1 << 62, u64::MAX] {
            self.corner(numbers, entry.first, corner);
            self.corner(numbers, entry.last, corner);
        }
        let count = entry.last - entry.first + 1;
        for k in 0..self.limits.reads.min(count) {
            let element = entry.first + if count <= self.limits.reads { k } else { self.random.below(count) };
            let greatest = if self.random.one_in(8) { 28 } else { 5 };
            for corner in 1..=greatest {
                self.corner(numbers, element, corner);
            }
            self.element(numbers, element);
        }
    }

    /// A number near another, at an end of what 64 bits hold, or one that wraps when multiplied.
    fn odd_number(&mut self, near: u64) -> u64 {
        let length = self.comparison.image.len() as u64;
        match self.random.below(11) {
            0 => near.wrapping_add(1),
            1 => near.wrapping_sub(1),
            2 => u64::MAX,
            3 => 0,
            4 => 1 << 63,
            5 => length.wrapping_sub(self.random.below(20)),
            6 => u64::MAX - self.random.below(9),
            7 => (1 << 61) + self.random.below(3),
            8 => (1 << 62) + self.random.below(3),
            9 => near.wrapping_add(1 << 32),
            _ => self.random.below(24),
        }
    }

    /// Corners by sections that no image gave.
    fn absurd_corners(&mut self) {
        for _ in 0..16 {
            let mut section = [0; ENTRY_LENGTH];
            for number in section.iter_mut() {
                *number = self.odd_number(8);
            }
            section[1] = *self.random.pick(&[2, 5, 17, 20, 20, 22, 23, 24, u64::MAX, 0]);
            section[5] = *self.random.pick(&[4, 4, 8, 8, 0, 16, u64::MAX]);
            section[7] = *self.random.pick(&[4, 4, 8, 8, 0, u64::MAX]);
            if self.random.one_in(2) {
                section[2] = self.random.below(3);
                section[3] = section[2] + self.random.below(4);
                section[4] = self.random.below(64);
                section[6] = self.random.below(64);
                section[8] = self.random.below(12);
            }
            let element = section[2].wrapping_add(self.random.below(3));
            let corner = self.random.below(4);
            self.corner(&section, element, corner);
            self.element(&section, element);
        }
    }
}
