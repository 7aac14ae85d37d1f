//! Paths (document 01, "Handing out"): the names from below the root, each after a slash; the root's is one slash.

use crate::rejection::Rejection;
use crate::table::Table;
use crate::text::trimmed;

/// The path of any node, or one of rules 1 to 18, or 40.
pub fn path(image: &[u8], node: u64) -> Result<Vec<u8>, Rejection> {
    let table = Table::read(image)?;
    let node = table.node_asked_for(node)?;
    if node == 0 {
        return Ok(b"/".to_vec());
    }
    let mut whole = Vec::new();
    append_path(&table, node, &mut whole);
    Ok(whole)
}

/// Appends the path of a node to `whole`, its parent's first; the root adds nothing.
fn append_path(table: &Table, node: usize, whole: &mut Vec<u8>) {
    if node == 0 {
        return;
    }
    append_path(table, table.nodes[node].parent, whole);
    whole.push(b'/');
    whole.extend_from_slice(trimmed(&table.nodes[node].name));
}

/// Writes the path of any node to the front of `out` and answers its length; or one of rules 1 to 18, 40, or 46 when it
/// does not fit. A refusal leaves `out` as it was, and so do bytes past the path.
pub fn path_into(image: &[u8], node: u64, out: &mut [u8]) -> Result<usize, Rejection> {
    let whole = path(image, node)?;
    let room = out.get_mut(..whole.len()).ok_or(Rejection::of_call(46))?;
    room.copy_from_slice(&whole);
    Ok(whole.len())
}
