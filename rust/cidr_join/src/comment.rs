// Written by scripts/plain out of crates/cidr_join/src/comment.rt

//! The comments of a list: lines, what is directly after a network, and values that begin as one.

use cidr_programs::lists::{ByteKind, front_len, read_entry, without_comment};

/// Whether a text, without the blanks around it, is empty or begins with `#` or `;`.
pub(crate) fn is_skipped(text: &[u8]) -> bool {
    match text.first() {
        Some(byte) => *byte == b'#' || *byte == b';',
        None => true,
    }
}

/// Returns the length of a text if it begins with `#` or `;`, and else 0.
pub(crate) fn comment_len(text: &[u8]) -> usize {
    match text.first() {
        Some(byte) if *byte == b'#' || *byte == b';' => text.len(),
        _ => 0,
    }
}

/// Whether a value begins as a comment does, and the first words of that comment are an entry.
pub(crate) fn has_entry(value: &[u8]) -> bool {
    is_skipped(value) && matches!(read_entry(comment_words(value)), Ok(Some(_)))
}

// Returns what follows the marks of comments and the blanks that a text begins with, up to the next
// mark.
fn comment_words(text: &[u8]) -> &[u8] {
    without_comment(&text[front_len::<BeforeWords>(text)..])
}

// A space, a tab, `#` or `;`.
struct BeforeWords;

impl ByteKind for BeforeWords {
    fn has(byte: u8) -> bool {
        byte == b' ' || byte == b'\t' || byte == b'#' || byte == b';'
    }
}
