// Written by scripts/plain out of crates/lists/src/cutting.rt

//! Cuts a text at the first byte of a value.

use fosibegan_core::byte_search::find_from;

/// Returns what comes before the first byte of this value, or the whole text if it has none.
pub(crate) fn before(text: &[u8], byte: u8) -> &[u8] {
    match find_from(text, 0, byte) {
        Some(end) => &text[..end],
        None => text,
    }
}

/// Returns what comes after the first byte of this value, or nothing if the text has none.
pub(crate) fn after(text: &[u8], byte: u8) -> &[u8] {
    match find_from(text, 0, byte) {
        Some(end) => &text[end + 1..],
        None => &[],
    }
}
