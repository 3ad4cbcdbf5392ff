// Written by scripts/plain out of crates/cidr/src/replies.rt

//! Adds answers to the replies that wait.

use fosibegan_core::plain_std::arrayvec::ArrayString;
use cidr_programs::lines::buffer::Buffer;

/// The greatest number of bytes in an answer with its line feed.
pub(crate) const ANSWER_MAX: usize = 160;

/// An answer of several parts, before it is added.
pub(crate) type Answer = ArrayString<ANSWER_MAX>;

/// Adds an answer and a line feed.
#[inline(always)]
pub(crate) fn reply(replies: &mut Buffer<'_>, answer: &str) {
    replies.push_bytes(answer.as_bytes());
    replies.push(b'\n');
}
