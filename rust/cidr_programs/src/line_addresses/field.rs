// Written by scripts/plain out of crates/line_addresses/src/field.rt

//! The fields of a line.

use fosibegan_core::byte_search::find_from;

/// Returns the field with this number, from 1 on, of a line that is split at each separator, or
/// `None` if the line has fewer fields. The number 0 counts as 1.
///
/// ```
/// # use cidr_programs::in_examples::*;
/// assert_eq!(field_of(b"a,,10.1.1.1", 3, b','), Some(b"10.1.1.1".as_slice()));
/// assert_eq!(field_of(b"a,,10.1.1.1", 2, b','), Some(b"".as_slice()));
/// assert_eq!(field_of(b"a,,10.1.1.1", 4, b','), None);
/// ```
#[inline(always)]
pub fn field_of(line: &[u8], number: u32, separator: u8) -> Option<&[u8]> {
    let mut start = 0;
    let mut more = number.saturating_sub(1);
    while more > 0 {
        let Some(end) = find_from(line, start, separator) else {
            return None;
        };
        start = end + 1;
        more -= 1;
    }
    Some(field_at(line, start, separator))
}

// Returns the field that begins at this index.
#[inline(always)]
fn field_at(line: &[u8], start: usize, separator: u8) -> &[u8] {
    match find_from(line, start, separator) {
        Some(end) => &line[start..end],
        None => &line[start..],
    }
}
