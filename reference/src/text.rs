//! Names and labels: 32 bytes, padded right with blanks.

/// A name or a label: 32 bytes, padded right with blanks.
pub type Text = [u8; 32];

/// The text as 32 bytes, padded right with blanks; what is longer is cut off.
pub fn padded(text: &[u8]) -> Text {
    let mut whole = [b' '; 32];
    let length = text.len().min(32);
    whole[..length].copy_from_slice(&text[..length]);
    whole
}

/// The text without the blanks at its right end.
pub fn trimmed(text: &Text) -> &[u8] {
    let end = text.iter().rposition(|&b| b != b' ').map_or(0, |k| k + 1);
    &text[..end]
}

/// Whether a text has bytes 32 to 126 only and does not begin with a blank.
pub fn text_lawful(text: &Text) -> bool {
    text[0] != b' ' && text.iter().all(|b| (32..=126).contains(b))
}
