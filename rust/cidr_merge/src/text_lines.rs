// Written by scripts/plain out of crates/cidr_merge/src/text_lines.rt

//! The lines of a text.

use fosibegan_core::byte_search::find_from;

/// An iterator over the lines of a text, without their line endings.
#[derive(Clone, Copy, Debug)]
pub(crate) struct TextLines<'a> {
    text: &'a [u8],
}

impl<'a> TextLines<'a> {
    /// Returns an iterator over the lines of this text.
    pub(crate) fn of(text: &'a [u8]) -> TextLines<'a> {
        TextLines { text }
    }

    /// Returns the next line. A line ends at a line feed, or a carriage return and a line feed, or
    /// at the end of the text.
    pub(crate) fn next(&mut self) -> Option<&'a [u8]> {
        let text = self.text;
        if text.is_empty() {
            return None;
        }
        match find_from(text, 0, b'\n') {
            Some(end) => {
                self.text = &text[end + 1..];
                Some(without_return(&text[..end]))
            }
            None => {
                self.text = &text[text.len()..];
                Some(text)
            }
        }
    }
}

// Returns a line that a line feed ended, without the one carriage return at its end, if any.
fn without_return(line: &[u8]) -> &[u8] {
    match line.split_last() {
        Some((byte, front)) if *byte == b'\r' => front,
        _ => line,
    }
}
