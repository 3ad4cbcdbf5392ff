// Written by scripts/plain out of crates/cidr/src/cutting.rt

//! The words of a line.

use fosibegan_core::byte_search::find_from;

/// Returns the word of a line that begins at the position `from`, and the position of the next
/// word, after a blank. Returns `None` if the rest of the line is one word.
#[inline(always)]
pub(crate) fn cut_word(line: &[u8], from: usize) -> Option<(&[u8], usize)> {
    match find_from(line, from, b' ') {
        None => None,
        Some(end) => Some((&line[from..end], end + 1)),
    }
}
