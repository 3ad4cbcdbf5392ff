// Written by scripts/plain out of crates/line_addresses/src/from_end.rt

//! The fields and words of a line, counted from its end.

/// Returns the field with this number, from 1 on, counted from the end of a line that is split at
/// each separator, or `None` if the line has fewer fields. The number 0 counts as 1.
///
/// ```
/// # use cidr_programs::in_examples::*;
/// assert_eq!(field_from_end(b"10.1.1.1,b,", 1, b','), Some(b"".as_slice()));
/// assert_eq!(field_from_end(b"10.1.1.1,b,", 3, b','), Some(b"10.1.1.1".as_slice()));
/// assert_eq!(field_from_end(b"10.1.1.1,b,", 4, b','), None);
/// ```
pub fn field_from_end(line: &[u8], number: u32, separator: u8) -> Option<&[u8]> {
    part_from_end(line, number, Some(separator))
}

/// Returns the word with this number, from 1 on, counted from the end of a line, or `None` if it
/// has fewer words. Words are separated by spaces and tabs. The number 0 counts as 1.
///
/// ```
/// # use cidr_programs::in_examples::*;
/// assert_eq!(word_from_end(b"Nov  3 host ", 1), Some(b"host".as_slice()));
/// assert_eq!(word_from_end(b"Nov  3 host ", 4), None);
/// ```
pub fn word_from_end(line: &[u8], number: u32) -> Option<&[u8]> {
    part_from_end(line, number, None)
}

// Returns the field with this number, counted from the end of the line, or the word if there is no
// separator. The line is read backwards, up to the beginning of that part.
fn part_from_end(line: &[u8], number: u32, separator: Option<u8>) -> Option<&[u8]> {
    let mut end = line.len();
    let mut at = end;
    let mut more = number.saturating_sub(1);
    'bytes: while at > 0 {
        at -= 1;
        if !cuts(separator, line[at]) {
            continue 'bytes;
        }
        let part = &line[at + 1..end];
        end = at;
        if is_skipped(separator, part) {
            continue 'bytes;
        }
        if more == 0 {
            return Some(part);
        }
        more -= 1;
    }
    let part = &line[..end];
    if is_skipped(separator, part) {
        return None;
    }
    if more > 0 {
        return None;
    }
    Some(part)
}

// Returns whether a part is not a word, since it is empty between blanks.
fn is_skipped(separator: Option<u8>, part: &[u8]) -> bool {
    match separator {
        Some(_) => false,
        None => part.is_empty(),
    }
}

// Returns whether a byte is between two parts: the separator, or a blank if there is none.
fn cuts(separator: Option<u8>, byte: u8) -> bool {
    match separator {
        Some(one) => byte == one,
        None => byte == b' ' || byte == b'\t',
    }
}
