//! The node table of an image that meets rules 1 to 18: what every later rule and call reads from.

use crate::bytes::Integers;
use crate::data_type::DataType;
use crate::header::{check_header, Header};
use crate::labels::Label;
use crate::records::{check_records, Record};
use crate::rejection::Rejection;
use crate::text::Text;

/// One node of the table.
#[derive(Clone, Debug)]
pub struct Node {
    pub name: Text,
    /// The known label, if it is one.
    pub label: Option<Label>,
    pub data_type: DataType,
    /// The parent's number; the root is its own here.
    pub parent: usize,
    /// The numbers of the children, ascending.
    pub children: Vec<usize>,
    first_word: usize,
    dimension_count: usize,
    /// Where the data begin, from the image's start.
    pub data_at: usize,
    data_length: usize,
}

/// The nodes of an image with their dimensions and data.
#[derive(Clone, Debug)]
pub struct Table<'a> {
    image: &'a [u8],
    words: Vec<u64>,
    pub nodes: Vec<Node>,
}

/// The number of nodes, or the first broken of rules 1 to 18.
pub fn check_table(image: &[u8]) -> Result<u64, Rejection> {
    Table::read(image).map(|table| table.nodes.len() as u64)
}

impl<'a> Table<'a> {
    /// The table of an image, or the first broken of rules 1 to 18.
    pub fn read(image: &'a [u8]) -> Result<Table<'a>, Rejection> {
        let header = check_header(image)?;
        let (records, words) = check_records(image, &header)?;
        let mut nodes: Vec<Node> = Vec::with_capacity(records.len());
        for (number, record) in records.iter().enumerate() {
            let node = Node::of(record, &header, number);
            if number > 0 {
                nodes[node.parent].children.push(number);
            }
            nodes.push(node);
        }
        Ok(Table { image, words, nodes })
    }

    /// The node that a caller's number names, or 40.
    pub fn node_asked_for(&self, node: u64) -> Result<usize, Rejection> {
        usize::try_from(node).ok().filter(|&n| n < self.nodes.len()).ok_or(Rejection::of_call(40))
    }

    /// The dimensions of a node.
    pub fn dimensions(&self, node: usize) -> &[u64] {
        let n = &self.nodes[node];
        &self.words[n.first_word..n.first_word + n.dimension_count]
    }

    /// The data bytes of a node.
    pub fn data(&self, node: usize) -> &'a [u8] {
        let n = &self.nodes[node];
        &self.image[n.data_at..n.data_at + n.data_length]
    }

    /// The data of a node of type I4 or I8 as signed numbers; none for another type.
    pub fn integers(&self, node: usize) -> Integers<'a> {
        let data_type = self.nodes[node].data_type;
        if data_type.is_integer() {
            Integers::new(self.data(node), data_type.width())
        } else {
            Integers::NONE
        }
    }
}

impl Node {
    /// The node of a record that has passed rules 7 to 17, with no children yet.
    fn of(record: &Record, header: &Header, number: usize) -> Node {
        Node {
            name: record.name,
            label: Label::of(&record.label),
            data_type: DataType::named(record.data_type).unwrap_or(DataType::MT),
            parent: if number == 0 { 0 } else { record.parent as usize },
            children: Vec::new(),
            first_word: record.first_word as usize,
            dimension_count: usize::from(record.dimension_count),
            data_at: header.data_offset as usize + record.data_offset as usize,
            data_length: record.data_length as usize,
        }
    }
}
