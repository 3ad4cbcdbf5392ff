// Written by scripts/plain out of crates/log_programs/src/byte_order_mark.rt

//! The byte order mark that a log may begin with.

/// Returns the part of a line in which addresses are looked for: the line, given without its end,
/// but for a byte order mark of UTF-8 (EF BB BF) at the start of its log. `before` is the number of
/// lines of the log before this one. Does not allocate.
///
/// ```
/// # use cidr_programs::in_examples::*;
/// use cidr_programs::log_programs::byte_order_mark::judged;
///
/// assert_eq!(judged(b"\xef\xbb\xbf10.1.1.1", 0), b"10.1.1.1".as_slice());
/// assert_eq!(judged(b"\xef\xbb\xbf10.1.1.1", 1), b"\xef\xbb\xbf10.1.1.1".as_slice());
/// ```
#[inline(always)]
pub fn judged(line: &[u8], before: u64) -> &[u8] {
    if before == 0 { behind_mark(line) } else { line }
}

// Returns what comes after the byte order mark that a text begins with, or the whole text if it
// begins with none. It is not inlined, since it is called once for a log.
#[inline(never)]
fn behind_mark(text: &[u8]) -> &[u8] {
    if text.starts_with(&[0xEF, 0xBB, 0xBF]) {
        &text[3..]
    } else {
        text
    }
}
