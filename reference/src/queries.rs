//! A list of queries of an image with their answers, for programs that compare another reader with this one.

mod additions;
mod parents;
mod types;
mod writer;

use crate::answers::*;
use crate::faces::face_count;
use crate::labels::Label;
use crate::path::path;
use crate::random::Random;
use crate::reader::{element_corners, section_entries, Section, ENTRY_LENGTH};
use crate::table::{check_table, Table};
use crate::tree::Tree;

/// Queries of an image, each as `QUERY = ANSWER`; the same list for the same seed and image.
pub fn queries(seed: u64, image: &[u8]) -> Vec<String> {
    let mut asker = Asker { random: Random::new(seed, image.len() as u64), image, lines: Vec::new() };
    asker.verdicts();
    let nodes = asker.nodes();
    for &node in &nodes {
        asker.about_node(node);
    }
    asker.absurd_corners();
    asker.lists(&nodes);
    asker.absurd_elements();
    asker.absurd_types();
    asker.writer();
    asker.lines
}

/// The validated arrays of flow solutions that have a range or a list of points.
fn arrays_beside_points(image: &[u8]) -> Vec<u64> {
    let Ok(tree) = Table::read(image).map(Tree::new) else {
        return Vec::new();
    };
    let has = |node, label| tree.children_labelled(node, label).next().is_some();
    let beside_points = |&node: &usize| {
        let flow = tree.parent_labelled(node, Label::FlowSolution);
        tree.is_validated_as(node, Label::DataArray)
            && flow.is_some_and(|flow| has(flow, Label::IndexRange) || has(flow, Label::IndexArray))
    };
    (0..tree.count()).filter(beside_points).map(|node| node as u64).collect()
}

struct Asker<'a> {
    random: Random,
    image: &'a [u8],
    lines: Vec<String>,
}

impl Asker<'_> {
    /// Notes a query and its answer.
    fn note(&mut self, query: String, answer: String) {
        self.lines.push(format!("{query} = {answer}"));
    }

    /// The two verdicts, and the name bytes.
    fn verdicts(&mut self) {
        self.note("validate".into(), validate_line(self.image));
        self.note("table".into(), table_line(self.image));
        self.note("name-bytes".into(), name_bytes_line(self.image));
    }

    /// The node numbers to be asked for: all of them, or 40 and some arrays beside points where there are many, and some
    /// past the end.
    fn nodes(&mut self) -> Vec<u64> {
        let count = check_table(self.image).unwrap_or(2);
        let mut nodes: Vec<u64> = (0..count).collect();
        if nodes.len() > 40 {
            self.random.shuffle(&mut nodes);
            nodes.truncate(40);
            let mut beside_points = arrays_beside_points(self.image);
            self.random.shuffle(&mut beside_points);
            nodes.extend(beside_points.into_iter().take(6));
            nodes.sort_unstable();
            nodes.dedup();
        }
        nodes.extend([count, count + 1, u64::from(u32::MAX), 1 << 32, u64::MAX]);
        nodes
    }

    /// Everything that is asked about one node.
    fn about_node(&mut self, node: u64) {
        let image = self.image;
        self.note(format!("path {node}"), path_line(image, node));
        self.short_paths(node);
        self.note(format!("sizes {node}"), sizes_line(image, node));
        self.values(node);
        self.note(format!("entries {node}"), entries_line(image, node));
        self.note(format!("usage {node}"), usage_line(image, node));
        if let Ok(entries) = section_entries(image, node) {
            self.about_zone(node, &entries);
        } else if self.random.one_in(3) {
            self.parents_of_no_zone(node);
        }
    }

    /// The path into memory of fitting and of too little length.
    fn short_paths(&mut self, node: u64) {
        let length = path(self.image, node).map_or(3, |path| path.len());
        let room = match self.random.below(4) {
            0 => length.saturating_sub(1),
            1 => length,
            2 => length + 3,
            _ => 0,
        };
        let answer = path_into_line(self.image, node, room);
        self.note(format!("path-into {node} {room}"), answer);
    }

    /// Some values of a node, the ends of the array among them.
    fn values(&mut self, node: u64) {
        let count = Table::read(self.image).map_or(1, |table| {
            let known = usize::try_from(node).ok().filter(|&n| n < table.nodes.len());
            known.map_or(1, |n| table.dimensions(n).iter().product())
        });
        let inside = 1 + self.random.below(count);
        let mut asked = vec![0, 1, inside, count, count + 1, u64::MAX];
        asked.sort_unstable();
        asked.dedup();
        for k in asked {
            self.note(format!("value {node} {k}"), value_line(self.image, node, k));
        }
    }

    /// What is asked about a zone: memory of several lengths, and corners by its entries.
    fn about_zone(&mut self, zone: u64, entries: &[Section]) {
        let image = self.image;
        let count = entries.len();
        for room in [count.saturating_sub(1), count + 1] {
            let answer = entries_into_line(image, zone, room);
            self.note(format!("entries-into {zone} {room}"), answer);
        }
        let faces = face_count(image, zone).unwrap_or(0) as usize;
        if faces <= 4_096 {
            for room in [faces.saturating_sub(1), faces + 2] {
                let answer = usage_into_line(image, zone, room);
                self.note(format!("usage-into {zone} {room}"), answer);
            }
        }
        self.parents_of_zone(zone, entries, faces);
        for entry in entries {
            self.corners(entry);
        }
    }

    /// Corners of a section: inside, at the ends, out of range, and by an entry with one number changed.
    fn corners(&mut self, entry: &Section) {
        let numbers = entry.numbers();
        for element in [entry.first, entry.last] {
            let size = self.size(&numbers, element);
            let mut asked = vec![0, 1, 2, 3, 4, 5, size, size + 1, u64::MAX];
            asked.sort_unstable();
            asked.dedup();
            for corner in asked {
                self.corner(&numbers, element, corner);
            }
        }
        for element in [0, entry.first - 1, entry.last + 1, u64::MAX] {
            self.corner(&numbers, element, 1);
        }
        for _ in 0..4 {
            let (element, corner) = (self.inside(entry), self.random.below(9));
            self.corner(&numbers, element, corner);
        }
        for _ in 0..6 {
            let other = self.other_entry(entry);
            let element = self.odd_number(entry.first);
            let (first, corner) = (entry.first, self.random.below(5));
            self.corner(&other, first, corner);
            self.corner(&other, element, corner);
        }
    }

    /// Any element of a section.
    fn inside(&mut self, entry: &Section) -> u64 {
        entry.first + self.random.below(entry.last - entry.first + 1)
    }

    /// An entry with one number changed.
    fn other_entry(&mut self, entry: &Section) -> [u64; ENTRY_LENGTH] {
        let mut other = entry.numbers();
        let place = self.random.index(ENTRY_LENGTH);
        other[place] = self.odd_number(other[place]);
        other
    }

    /// How many corners an element has; 64 where it has more, or is not of the section.
    fn size(&self, entry: &[u64; ENTRY_LENGTH], element: u64) -> u64 {
        let mut out = [0; 64];
        element_corners(self.image, entry, element, &mut out).unwrap_or(out.len()) as u64
    }

    /// A number near another, or at the end of what 64 bits hold.
    fn odd_number(&mut self, near: u64) -> u64 {
        let image = self.image.len() as u64;
        match self.random.below(8) {
            0 => near.wrapping_add(1),
            1 => near.wrapping_sub(1),
            2 => u64::MAX,
            3 => 0,
            4 => 1 << 63,
            5 => image.wrapping_sub(self.random.below(20)),
            6 => u64::MAX - self.random.below(9),
            _ => self.random.below(24),
        }
    }

    /// One corner query.
    fn corner(&mut self, entry: &[u64; ENTRY_LENGTH], element: u64, corner: u64) {
        let query = format!("corner{} {element} {corner}", numbers(entry));
        let answer = corner_line(self.image, entry, element, corner);
        self.note(query, answer);
    }

    /// Corners by entries that no image gave.
    fn absurd_corners(&mut self) {
        for _ in 0..12 {
            let entry = self.absurd_entry();
            let element = entry[2].wrapping_add(self.random.below(3));
            let corner = self.random.below(4);
            self.corner(&entry, element, corner);
        }
    }

    /// An entry that no image gave; often one whose numbers are small.
    fn absurd_entry(&mut self) -> [u64; ENTRY_LENGTH] {
        let mut entry = [0; ENTRY_LENGTH];
        for number in entry.iter_mut() {
            *number = self.odd_number(8);
        }
        entry[1] = *self.random.pick(&[2, 5, 17, 20, 22, 23, u64::MAX, 0]);
        entry[5] = *self.random.pick(&[4, 8, 0, 16, u64::MAX]);
        entry[7] = *self.random.pick(&[4, 8, 0, u64::MAX]);
        if self.random.one_in(2) {
            entry[2] = self.random.below(3);
            entry[3] = entry[2] + self.random.below(4);
            entry[4] = self.random.below(64);
            entry[6] = self.random.below(64);
            entry[8] = self.random.below(12);
        }
        entry
    }

    /// What is asked with lists: of every zone, and of two nodes that are none.
    fn lists(&mut self, nodes: &[u64]) {
        let (zones, mut others): (Vec<u64>, Vec<u64>) =
            nodes.iter().partition(|&&node| section_entries(self.image, node).is_ok());
        for zone in zones {
            self.lists_of_zone(zone);
        }
        self.random.shuffle(&mut others);
        for &node in others.iter().take(2) {
            let (room, lists) = (self.random.index(4), 1 + self.random.index(6));
            self.list(node, room);
            self.reads(node, lists, &[]);
        }
    }

    /// A zone's entries as structs, with memory of several lengths; reads by its entries; elements of its sections and
    /// their types.
    fn lists_of_zone(&mut self, zone: u64) {
        let entries = section_entries(self.image, zone).unwrap_or_default();
        let count = entries.len();
        for room in [count.saturating_sub(1), count, count + 1 + self.random.index(3)] {
            self.list(zone, room);
        }
        for room in [3, self.random.index(3), 3 + self.random.index(6), 4] {
            self.reads(zone, room, &entries);
        }
        for entry in &entries {
            self.elements(entry);
            self.types(entry);
            self.stored_types(entry);
        }
    }

    /// One query of a node's entries as structs.
    fn list(&mut self, zone: u64, room: usize) {
        let answer = entries_into_line(self.image, zone, room);
        self.note(format!("list-into {zone} {room}"), answer);
    }

    /// Three reads by a zone's entries into lists of `room` places.
    fn reads(&mut self, zone: u64, room: usize, entries: &[Section]) {
        let reads = [(); 3].map(|()| self.read(entries));
        let answer = reads_line(self.image, zone, room, &reads);
        self.note(format!("reads {zone} {room}{}", numbers(reads.as_flattened())), answer);
    }

    /// One read of a list: mostly inside a section, else out of its range, of an entry that was not written, or of none.
    fn read(&mut self, entries: &[Section]) -> [u64; 3] {
        let beyond = [entries.len() as u64, 15, 16, 17, 1 << 63, u64::MAX];
        if entries.is_empty() || self.random.one_in(4) {
            let element = *self.random.pick(&[u64::from(FILLING), 1, u64::MAX]);
            return [*self.random.pick(&beyond), element, self.random.below(3)];
        }
        let which = self.random.index(entries.len());
        let entry = &entries[which];
        let element = match self.random.below(6) {
            0 => self.odd_number(entry.last),
            1 => entry.last,
            _ => self.inside(entry),
        };
        let size = self.size(&entry.numbers(), element);
        [which as u64, element, self.random.below(size + 2)]
    }

    /// All corners of elements of a section: the first and the last with memory of several lengths, out of range, and by an entry with one
    /// number changed.
    fn elements(&mut self, entry: &Section) {
        let numbers = entry.numbers();
        for element in [entry.first, entry.last] {
            let size = self.size(&numbers, element) as usize;
            for room in [size, size - 1, size + self.random.index(4), 0] {
                self.element(&numbers, element, room);
            }
        }
        for element in [entry.first - 1, entry.last + 1] {
            self.element(&numbers, element, 2);
        }
        for _ in 0..6 {
            let (other, element) = (self.other_entry(entry), self.inside(entry));
            let room = self.random.index(9);
            self.element(&other, element, room);
        }
    }

    /// All corners of elements by entries that no image gave.
    fn absurd_elements(&mut self) {
        for _ in 0..12 {
            let entry = self.absurd_entry();
            let element = entry[2].wrapping_add(self.random.below(3));
            let room = self.random.index(9);
            self.element(&entry, element, room);
        }
    }

    /// One query of all corners of an element.
    fn element(&mut self, entry: &[u64; ENTRY_LENGTH], element: u64, room: usize) {
        let query = format!("element-into{} {element} {room}", numbers(entry));
        let answer = element_into_line(self.image, entry, element, room);
        self.note(query, answer);
    }
}
