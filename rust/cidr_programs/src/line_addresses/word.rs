// Written by scripts/plain out of crates/line_addresses/src/word.rt

//! The words of a line.

/// Returns the word with this number, from 1 on, of a line, or `None` if it has fewer words. Words
/// are separated by spaces and tabs. The number 0 counts as 1.
///
/// ```
/// # use cidr_programs::in_examples::*;
/// assert_eq!(word_of(b"Nov  3 10:00:00 host", 2), Some(b"3".as_slice()));
/// assert_eq!(word_of(b"Nov  3 10:00:00 host", 5), None);
/// ```
pub fn word_of(line: &[u8], number: u32) -> Option<&[u8]> {
    let mut at = 0;
    let mut more = number.saturating_sub(1);
    'words: while at < line.len() {
        let end = word_end(line, at);
        if end == at {
            at += 1;
            continue 'words;
        }
        if more == 0 {
            return Some(&line[at..end]);
        }
        more -= 1;
        at = end;
    }
    None
}

// Returns the index after the non-blank bytes that begin at `start`.
#[inline(always)]
fn word_end(line: &[u8], start: usize) -> usize {
    for at in start..line.len() {
        if is_blank(line[at]) {
            return at;
        }
    }
    line.len()
}

// Returns whether a byte is a space or a tab.
fn is_blank(byte: u8) -> bool {
    byte == b' ' || byte == b'\t'
}
