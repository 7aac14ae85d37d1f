//! The nodes that a writer is given (document 02, §8), and an image read node by node.

use crate::build::{Image, Node};
use crate::header::check_header;
use crate::records::{check_records, Record};
use crate::rejection::Rejection;
use crate::text::{padded, Text};

/// A node to be added.
#[derive(Clone, Debug, Default, PartialEq, Eq)]
pub struct Addition {
    /// Name and label, with the blanks behind them or without.
    pub name: Vec<u8>,
    pub label: Vec<u8>,
    pub data_type: Vec<u8>,
    pub dimensions: Vec<u64>,
    pub parent: u64,
    pub data: Vec<u8>,
}

impl Addition {
    /// Its name as a record has it; nothing where it is empty or longer than that.
    pub fn name_text(&self) -> Option<Text> {
        text_of(&self.name)
    }

    /// Its label as a record has it; nothing where it is empty or longer than that.
    pub fn label_text(&self) -> Option<Text> {
        text_of(&self.label)
    }

    /// The same node with name and label as a record has them; what is longer is cut off.
    pub fn padded(&self) -> Addition {
        let (name, label) = (padded(&self.name).to_vec(), padded(&self.label).to_vec());
        Addition { name, label, ..self.clone() }
    }

    /// The node of a record, with the areas of the image that it is in.
    fn of(record: &Record, words: &[u64], data: &[u8]) -> Addition {
        let (first, at) = (record.first_word as usize, record.data_offset as usize);
        Addition {
            name: record.name.to_vec(),
            label: record.label.to_vec(),
            data_type: record.data_type.to_vec(),
            dimensions: words[first..first + usize::from(record.dimension_count)].to_vec(),
            parent: u64::from(record.parent),
            data: data[at..at + record.data_length as usize].to_vec(),
        }
    }
}

/// A text of 1 to 32 bytes, padded.
fn text_of(text: &[u8]) -> Option<Text> {
    (1..=32).contains(&text.len()).then(|| padded(text))
}

/// What a start states, N, D and the data length, and the nodes of an image in order, with the 32 bytes of their names and
/// labels; or the first broken of rules 1 to 18.
pub fn additions(image: &[u8]) -> Result<([u64; 3], Vec<Addition>), Rejection> {
    let header = check_header(image)?;
    let (records, words) = check_records(image, &header)?;
    let data = &image[header.data_offset as usize..];
    let nodes = records.iter().map(|record| Addition::of(record, &words, data)).collect();
    Ok(([header.node_count, header.dimension_words, header.data_length].map(u64::from), nodes))
}

/// The image that the builder makes of nodes.
pub fn built(nodes: &[Addition]) -> Vec<u8> {
    let node = |addition: &Addition| Node {
        name: padded(&addition.name),
        label: padded(&addition.label),
        data_type: addition.data_type[..].try_into().unwrap_or_default(),
        parent: addition.parent as u32,
        ..Node::new("", "", "MT", &addition.dimensions, addition.data.clone())
    };
    Image { nodes: nodes.iter().map(node).collect(), ..Image::default() }.to_bytes()
}

/// What a start states for these nodes.
pub fn stated(nodes: &[Addition]) -> [u64; 3] {
    let words = nodes.iter().map(|node| node.dimensions.len()).sum::<usize>();
    let bytes = nodes.iter().map(|node| node.data.len()).sum::<usize>();
    [nodes.len(), words, bytes].map(|count| count as u64)
}
