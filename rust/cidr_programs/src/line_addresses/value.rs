// Written by scripts/plain out of crates/line_addresses/src/value.rt

//! The value after a text in a line.

use crate::line_addresses::first_position::following;
use crate::line_addresses::run::{address_in, run_end};

/// Returns what follows a text in a line, without the blanks, quotation marks and `[` that come
/// first, if it begins with an address, and otherwise `None`. Only the first occurrence of the text
/// counts, and none inside a name.
///
/// ```
/// # use cidr_programs::in_examples::*;
/// let line = b"{\"peer_ip\":\"10.1.1.1\",\"ip\":\"10.1.1.2\",\"user\":null}";
/// assert_eq!(value_after(line, b"ip\":"), Some(b"10.1.1.2\",\"user\":null}".as_slice()));
/// assert_eq!(value_after(b"client_ip=- 10.1.1.1", b"client_ip="), None);
/// assert_eq!(value_after(b"client_ip=\"\" 10.1.1.1", b"client_ip="), None);
/// ```
pub fn value_after<'a>(line: &'a [u8], text: &[u8]) -> Option<&'a [u8]> {
    let Some(rest) = following(line, text) else {
        return None;
    };
    let value = &rest[opened_at(rest)..];
    if begins_with_address(value) {
        Some(value)
    } else {
        None
    }
}

// Returns whether the first run of a text, which begins it, has an address.
fn begins_with_address(text: &[u8]) -> bool {
    address_in(&text[..run_end(text, 0)]).is_some()
}

// Returns the index after the blanks, quotation marks and `[` that begin a text.
fn opened_at(text: &[u8]) -> usize {
    let mut at = 0;
    let mut before = 0;
    'bytes: while at < text.len() {
        if !opens(before, text[at]) {
            return at;
        }
        before = text[at];
        at += 1;
    }
    at
}

// Returns whether a byte is a blank or `[`, or a quotation mark other than the byte before it.
fn opens(before: u8, byte: u8) -> bool {
    match byte {
        b' ' | b'\t' | b'[' => true,
        b'"' | b'\'' => byte != before,
        _ => false,
    }
}
