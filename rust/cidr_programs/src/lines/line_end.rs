// Written by scripts/plain out of crates/lines/src/line_end.rt

//! How a line ends, and where.

/// How a line ended. The line ending is not part of the line.
///
/// ```
/// # use cidr_programs::in_examples::*;
/// use cidr_programs::lines::line_buffer::{LineBuffer, NextLine};
/// use cidr_programs::lines::line_end::LineEnd;
/// use cidr_programs::lines::watched::Watched;
///
/// let mut room = [0; 10];
/// let mut lines = LineBuffer::new(&mut room, 8);
/// assert_eq!(lines.ask(&mut Watched::new(b"a\r\nb\n".as_slice())), Ok(5));
/// assert_eq!(lines.next(), NextLine::Line(LineEnd::ReturnAndLineFeed));
/// assert_eq!(lines.next(), NextLine::Line(LineEnd::LineFeed));
/// ```
#[derive(Clone, Copy, Debug, PartialEq, Eq)]
pub enum LineEnd {
    /// By a line feed with no carriage return before it.
    LineFeed,
    /// By a carriage return and a line feed.
    ReturnAndLineFeed,
    /// By the end of the input.
    EndOfInput,
}

/// Where a line ends: the number of bytes before its line feed, the number of these that belong to
/// the line, and how the line ended.
#[derive(Clone, Copy)]
pub(crate) struct Cut {
    pub(crate) before: usize,
    pub(crate) content: usize,
    pub(crate) end: LineEnd,
}

/// Returns the end of a line that has these bytes before its line feed.
pub(crate) fn cut_before(raw: &[u8]) -> Cut {
    let before = raw.len();
    match raw.split_last() {
        Some((last, front)) if *last == b'\r' => Cut {
            before,
            content: front.len(),
            end: LineEnd::ReturnAndLineFeed,
        },
        _ => Cut {
            before,
            content: before,
            end: LineEnd::LineFeed,
        },
    }
}
