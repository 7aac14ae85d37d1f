//! The image builder: nodes laid out as bytes. What it lays out is lawful by rules 1 to 18 when the nodes are, unless a
//! word was overridden, as the tests of broken images do.

use crate::data_type::DataType;
use crate::header::Header;
use crate::records::Record;
use crate::text::{padded, Text};

/// One node to be laid out.
#[derive(Clone, Debug)]
pub struct Node {
    pub name: Text,
    pub label: Text,
    pub data_type: [u8; 2],
    pub dimensions: Vec<u64>,
    pub parent: u32,
    pub data: Vec<u8>,
    /// Words of the record to be written other than as laid out.
    pub dimension_count: Option<u16>,
    pub first_word: Option<u32>,
    pub data_offset: Option<u32>,
    pub data_length: Option<u32>,
}

impl Node {
    /// A node of type MT.
    pub fn empty(name: &str, label: &str) -> Node {
        Node::new(name, label, "MT", &[], Vec::new())
    }

    /// A node with a data type, dimensions and data bytes; its parent is given when it is added.
    pub fn new(name: &str, label: &str, data_type: &str, dimensions: &[u64], data: Vec<u8>) -> Node {
        Node {
            name: padded(name.as_bytes()),
            label: padded(label.as_bytes()),
            data_type: data_type.as_bytes().try_into().unwrap_or(*b"MT"),
            dimensions: dimensions.to_vec(),
            parent: Record::NO_PARENT,
            data,
            dimension_count: None,
            first_word: None,
            data_offset: None,
            data_length: None,
        }
    }

    /// A node of type C1 with one dimension.
    pub fn text(name: &str, label: &str, text: &str) -> Node {
        let data = text.as_bytes().to_vec();
        Node::new(name, label, "C1", &[data.len() as u64], data)
    }

    /// A node of integers of 4 or 8 bytes.
    pub fn integers(name: &str, label: &str, width: usize, dimensions: &[u64], numbers: &[i64]) -> Node {
        let data_type = if width == 4 { "I4" } else { "I8" };
        Node::new(name, label, data_type, dimensions, signed_bytes(width, numbers))
    }

    /// A DataArray_t of one dimension of integers.
    pub fn list(name: &str, width: usize, numbers: &[i64]) -> Node {
        Node::integers(name, "DataArray_t", width, &[numbers.len() as u64], numbers)
    }

    /// A PointRange from the begin and the end of each direction.
    pub fn point_range(width: usize, directions: &[[i64; 2]]) -> Node {
        let numbers: Vec<i64> = (0..2).flat_map(|k| directions.iter().map(move |direction| direction[k])).collect();
        Node::integers("PointRange", "IndexRange_t", width, &[directions.len() as u64, 2], &numbers)
    }

    /// A PointList of points, each with an index for every direction.
    pub fn point_list(width: usize, directions: usize, indices: &[i64]) -> Node {
        let count = indices.len() / directions.max(1);
        Node::integers("PointList", "IndexArray_t", width, &[directions as u64, count as u64], indices)
    }

    /// An ElementStartOffset from the size of each element.
    pub fn start_offsets(width: usize, sizes: &[i64]) -> Node {
        let mut offsets = vec![0];
        for size in sizes {
            offsets.push(offsets[offsets.len() - 1] + size);
        }
        Node::list("ElementStartOffset", width, &offsets)
    }

    /// A ParentElements from the two parents of each face, column by column.
    pub fn parent_elements(width: usize, pairs: &[[i64; 2]]) -> Node {
        let numbers: Vec<i64> = (0..2).flat_map(|column| pairs.iter().map(move |pair| pair[column])).collect();
        Node::integers("ParentElements", "DataArray_t", width, &[pairs.len() as u64, 2], &numbers)
    }

    /// Bytes of one value of its data type; 0 for a type that is none.
    pub fn width(&self) -> usize {
        DataType::named(self.data_type).map_or(0, DataType::width)
    }

    /// Its data as signed numbers of its width, 4 or 8.
    pub fn numbers(&self) -> Vec<i64> {
        let mut numbers = Vec::new();
        crate::bytes::Integers::new(&self.data, self.width()).all(|n| {
            numbers.push(n);
            true
        });
        numbers
    }

    /// Gives it other numbers of the same width, keeping its dimensions.
    pub fn set_numbers(&mut self, numbers: &[i64]) {
        self.data = signed_bytes(self.width(), numbers);
    }

    /// Gives it a list of numbers of the same width, with one dimension.
    pub fn set_list(&mut self, numbers: &[i64]) {
        self.set_numbers(numbers);
        self.dimensions = vec![numbers.len() as u64];
    }

    /// Gives it other dimensions and as many data bytes as they ask for, cut off or filled up with zeros.
    pub fn reshape(&mut self, dimensions: &[u64]) {
        self.dimensions = dimensions.to_vec();
        let values = dimensions.iter().product::<u64>() as usize;
        self.data.resize(values * self.width(), 0);
    }

    /// Gives it a text as data of type C1 with one dimension.
    pub fn set_text(&mut self, text: &str) {
        self.data_type = *b"C1";
        self.data = text.as_bytes().to_vec();
        self.dimensions = vec![text.len() as u64];
    }

    /// Whether its label is this one.
    pub fn is_labelled(&self, label: &str) -> bool {
        self.label == padded(label.as_bytes())
    }

    /// Whether its name is this one.
    pub fn is_named(&self, name: &str) -> bool {
        self.name == padded(name.as_bytes())
    }
}

/// Numbers as little-endian bytes of a width: 4, or 8 for any other. Numbers too large for 4 bytes lose their upper ones.
pub fn signed_bytes(width: usize, numbers: &[i64]) -> Vec<u8> {
    let mut bytes = Vec::with_capacity(width * numbers.len());
    for number in numbers {
        let whole = number.to_le_bytes();
        bytes.extend_from_slice(if width == 4 { &whole[..4] } else { &whole });
    }
    bytes
}

/// An image to be laid out.
#[derive(Clone, Debug, Default)]
pub struct Image {
    pub nodes: Vec<Node>,
    /// Dimension words and data bytes that no node has.
    pub trailing_words: Vec<u64>,
    pub trailing_data: Vec<u8>,
    /// Words taken away from the end of the dimension words, and bytes from the end of the data.
    pub missing_words: usize,
    pub missing_data: usize,
}

impl Image {
    /// An image with a root alone.
    pub fn with_root(name: &str, label: &str) -> Image {
        Image { nodes: vec![Node::empty(name, label)], ..Image::default() }
    }

    /// Adds a node under a parent; answers its number.
    pub fn add(&mut self, parent: usize, mut node: Node) -> usize {
        node.parent = parent as u32;
        self.nodes.push(node);
        self.nodes.len() - 1
    }

    /// The number of the parent of a node; nothing for the root and for parents that are not lower.
    pub fn parent(&self, node: usize) -> Option<usize> {
        let parent = self.nodes[node].parent as usize;
        (parent < node).then_some(parent)
    }

    /// The numbers of the children of a node.
    pub fn children(&self, node: usize) -> Vec<usize> {
        (0..self.nodes.len()).filter(|&n| self.parent(n) == Some(node)).collect()
    }

    /// The child of a node with this name.
    pub fn child(&self, node: usize, name: &str) -> Option<usize> {
        self.children(node).into_iter().find(|&n| self.nodes[n].is_named(name))
    }

    /// Takes a node and everything below it away; the others keep their order.
    pub fn remove(&mut self, node: usize) {
        let mut gone = vec![false; self.nodes.len()];
        gone[node] = true;
        for n in node + 1..self.nodes.len() {
            gone[n] = self.parent(n).is_some_and(|parent| gone[parent]);
        }
        let order: Vec<usize> = (0..self.nodes.len()).filter(|&n| !gone[n]).collect();
        self.reorder(&order);
    }

    /// Keeps the nodes of `order` in that order; with each node its parent is there.
    pub fn reorder(&mut self, order: &[usize]) {
        let mut new_number = vec![Record::NO_PARENT; self.nodes.len()];
        for (new, &old) in order.iter().enumerate() {
            new_number[old] = new as u32;
        }
        let nodes = order.iter().map(|&old| {
            let mut node = self.nodes[old].clone();
            node.parent = match new_number.get(node.parent as usize) {
                Some(&parent) => parent,
                None => node.parent,
            };
            node
        });
        self.nodes = nodes.collect();
    }

    /// The image's bytes.
    pub fn to_bytes(&self) -> Vec<u8> {
        let (words, data) = self.areas();
        let mut bytes = Vec::new();
        for word in self.header_words(words.len(), data.len()) {
            bytes.extend_from_slice(&word.to_le_bytes());
        }
        self.write_records(&mut bytes);
        for word in words {
            bytes.extend_from_slice(&word.to_le_bytes());
        }
        bytes.extend_from_slice(&data);
        bytes
    }

    /// The dimension words and the data bytes.
    fn areas(&self) -> (Vec<u64>, Vec<u8>) {
        let mut words: Vec<u64> = Vec::new();
        let mut data = Vec::new();
        for node in &self.nodes {
            words.extend_from_slice(&node.dimensions);
            data.extend_from_slice(&node.data);
        }
        words.extend_from_slice(&self.trailing_words);
        data.extend_from_slice(&self.trailing_data);
        words.truncate(words.len().saturating_sub(self.missing_words));
        data.truncate(data.len().saturating_sub(self.missing_data));
        (words, data)
    }

    /// The eight words of the header.
    fn header_words(&self, words: usize, data: usize) -> [u32; 8] {
        let dimension_offset = Header::SIZE + Record::SIZE * self.nodes.len();
        let data_offset = dimension_offset + Header::WORD_SIZE * words;
        [
            Header::FORM as usize,
            data_offset + data,
            self.nodes.len(),
            Header::SIZE,
            dimension_offset,
            words,
            data_offset,
            data,
        ]
        .map(|word| word as u32)
    }

    /// Appends the records.
    fn write_records(&self, bytes: &mut Vec<u8>) {
        let mut first_word = 0u32;
        let mut data_offset = 0u32;
        for node in &self.nodes {
            let count = node.dimension_count.unwrap_or(node.dimensions.len() as u16);
            let length = node.data_length.unwrap_or(node.data.len() as u32);
            bytes.extend_from_slice(&node.name);
            bytes.extend_from_slice(&node.label);
            bytes.extend_from_slice(&node.data_type);
            bytes.extend_from_slice(&count.to_le_bytes());
            bytes.extend_from_slice(&node.first_word.unwrap_or(first_word).to_le_bytes());
            bytes.extend_from_slice(&node.parent.to_le_bytes());
            bytes.extend_from_slice(&node.data_offset.unwrap_or(data_offset).to_le_bytes());
            bytes.extend_from_slice(&length.to_le_bytes());
            first_word += node.dimensions.len() as u32;
            data_offset += node.data.len() as u32;
        }
    }
}
