// Written by scripts/plain out of crates/lists/src/last_byte.rt

//! The last byte of a list.

/// Returns whether the last byte of a list is a line feed; one without any byte has none.
///
/// ```
/// # use cidr_programs::in_examples::*;
/// assert!(cidr_programs::lists::ends_with_feed(b"10.0.0.0/8\n"));
/// assert!(!cidr_programs::lists::ends_with_feed(b"192.168.100.0/2") && !cidr_programs::lists::ends_with_feed(b""));
/// ```
pub fn ends_with_feed(list: &[u8]) -> bool {
    !list.is_empty() && list[list.len() - 1] == b'\n'
}
