//! Name bytes (document 02, §3): how many bytes are compared when every two siblings have their names compared up to the
//! first byte that differs. Counted without comparing every two: of names that agree in their first k bytes each pair is
//! compared in the next one.

use crate::rejection::Rejection;
use crate::table::{Node, Table};
use crate::text::Text;

/// The sum, over all pairs of siblings, of the place, counted from 1, of the first byte in which their names differ; or
/// one of rules 1 to 18.
pub fn name_bytes(image: &[u8]) -> Result<u64, Rejection> {
    let table = Table::read(image)?;
    Ok(table.nodes.iter().map(|parent| family_bytes(&table, parent)).sum())
}

/// The bytes of all pairs of children of a node.
fn family_bytes(table: &Table, parent: &Node) -> u64 {
    let mut names: Vec<Text> = parent.children.iter().map(|&child| table.nodes[child].name).collect();
    names.sort_unstable();
    bytes_behind(&names, 0)
}

/// The bytes of all pairs of sorted names that agree in their first `shared` bytes, these not counted.
fn bytes_behind(names: &[Text], shared: usize) -> u64 {
    if names.len() < 2 || shared == names[0].len() {
        return 0;
    }
    let groups = names.chunk_by(|a, b| a[shared] == b[shared]);
    pairs(names.len()) + groups.map(|group| bytes_behind(group, shared + 1)).sum::<u64>()
}

/// How many pairs so many names have.
fn pairs(count: usize) -> u64 {
    let count = count as u64;
    count * count.saturating_sub(1) / 2
}
