// Written by scripts/plain out of crates/lists/src/comment.rt

//! The comment of a line.

use crate::lists::cutting::before;
use crate::lists::trimming::{Blank, ByteKind, front_len, trim};

/// Returns what comes before the first `#` or `;` of a line, or the whole line if it has neither.
///
/// ```
/// # use cidr_programs::in_examples::*;
/// assert_eq!(cidr_programs::lists::without_comment(b"10.0.0.0/8 # private"), b"10.0.0.0/8 ".as_slice());
/// ```
pub fn without_comment(line: &[u8]) -> &[u8] {
    before(before(line, b'#'), b';')
}

/// Returns the first words of the comment of a line: what follows its marks and blanks, up to the
/// next mark, without the blanks around it.
pub(crate) fn comment_text(line: &[u8]) -> &[u8] {
    let comment = &line[without_comment(line).len()..];
    trim::<Blank>(without_comment(&comment[front_len::<Gap>(comment)..]))
}

/// Blanks, and the marks that begin a comment.
struct Gap;

impl ByteKind for Gap {
    fn has(byte: u8) -> bool {
        byte == b' ' || byte == b'\t' || byte == b'#' || byte == b';'
    }
}
