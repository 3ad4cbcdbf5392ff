// Written by scripts/plain out of crates/line_addresses/src/first_position.rt

//! What follows a text in a line.

use fosibegan_core::byte_search::find_from;

/// Returns what follows the first occurrence of a text in a line, or `None` if there is none. One
/// that begins inside a name, of letters, digits, `-`, `.` and `_`, does not count. Each position
/// of the text's first byte is tried, so the time is at most proportional to the product of both
/// lengths.
///
/// ```
/// # use cidr_programs::in_examples::*;
/// let line = b"DST=10.1.1.1 ORIG_SRC=x SRC=10.1.1.2 SRC=x";
/// assert_eq!(following(line, b"SRC="), Some(b"10.1.1.2 SRC=x".as_slice()));
/// assert_eq!(following(line, b"IN="), None);
/// ```
pub fn following<'a>(line: &'a [u8], text: &[u8]) -> Option<&'a [u8]> {
    if text.is_empty() {
        return Some(line);
    }
    let first = text[0];
    let mut at = 0;
    'positions: while let Some(position) = find_from(line, at, first) {
        at = position + 1;
        if !begins_name(line, position) {
            continue 'positions;
        }
        if let Some(rest) = line[position..].strip_prefix(text) {
            return Some(rest);
        }
    }
    None
}

// Returns whether no name continues from the byte before a position to the byte at it. A space
// counts as the byte before the line.
fn begins_name(line: &[u8], position: usize) -> bool {
    position == 0 || !is_name_byte(line[position - 1]) || !is_name_byte(line[position])
}

// Returns whether a byte occurs in names: an ASCII letter or digit, `-`, `.` or `_`.
fn is_name_byte(byte: u8) -> bool {
    byte.is_ascii_alphanumeric() || byte == b'-' || byte == b'.' || byte == b'_'
}
