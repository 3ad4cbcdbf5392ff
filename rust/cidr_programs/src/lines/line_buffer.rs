// Written by scripts/plain out of crates/lines/src/line_buffer.rt

//! Splits the bytes that are read into a buffer into lines, in place.

use crate::lines::fault::RunFault;
use crate::lines::line_end::{Cut, LineEnd, cut_before};
use crate::lines::watched::Watched;
use fosibegan_core::byte_search::find_far;
use fosibegan_core::plain_std::io::Read;

/// What `LineBuffer::next` returns.
///
/// ```
/// # use cidr_programs::in_examples::*;
/// use cidr_programs::lines::line_buffer::{LineBuffer, NextLine};
/// use cidr_programs::lines::watched::Watched;
///
/// let mut reader = Watched::new(b"too long\n".as_slice());
/// let mut room = [0; 10];
/// let mut lines = LineBuffer::new(&mut room, 7);
/// assert_eq!(lines.next(), NextLine::Ask);
/// assert_eq!(lines.ask(&mut reader), Ok(9));
/// assert_eq!(lines.next(), NextLine::TooLong);
/// assert_eq!(lines.ask(&mut reader), Ok(0));
/// assert_eq!(lines.next(), NextLine::End);
/// ```
#[derive(Clone, Copy, Debug, PartialEq, Eq)]
pub enum NextLine {
    /// A line, which `line` lends, and how it ended.
    Line(LineEnd),
    /// A line that is longer than the limit. The whole line is skipped.
    TooLong,
    /// No complete line yet: more bytes must be read with `ask`.
    Ask,
    /// No line: the input has ended, and all of its lines were returned.
    End,
}

/// The greatest number of bytes that one read asks for. This keeps what is read and answered in the
/// processor's nearer caches.
const MOST_AT_ONCE: usize = 131_072;

/// The lines of the bytes that are read into a buffer, which the caller lends.
///
/// `next` returns one line at a time and calls no device. If it needs more bytes, it says so, and
/// `ask` makes one read. The caller thus decides what happens between two reads. A line is lent
/// from the buffer in place: none of its bytes is copied, and none is moved while its line feed is
/// in the buffer. `ask` moves the bytes of an incomplete line to the front of the buffer, unless
/// they are already there. No call allocates.
///
/// The lines, each with its line ending, make up what was read, except for the bytes that are still
/// pending. They are the lines of `str::lines` in std: a line ends with a line feed, and one
/// carriage return before it is dropped; what follows the last line feed is also a line, unless it
/// is empty.
///
/// ```
/// # use cidr_programs::in_examples::*;
/// use cidr_programs::lines::line_buffer::{LineBuffer, NextLine};
/// use cidr_programs::lines::line_end::LineEnd;
/// use cidr_programs::lines::watched::Watched;
///
/// let mut reader = Watched::new(b"10.0.0.0/8\n::1".as_slice());
/// let mut room = [0; 64];
/// let mut lines = LineBuffer::new(&mut room, 32);
/// assert_eq!(lines.ask(&mut reader), Ok(14));
/// assert_eq!(lines.next(), NextLine::Line(LineEnd::LineFeed));
/// assert_eq!(lines.line(), b"10.0.0.0/8".as_slice());
/// assert_eq!(lines.next(), NextLine::Ask);
/// ```
pub struct LineBuffer<'b> {
    buffer: &'b mut [u8],
    limit: usize,
    // The line that was returned last.
    line_start: usize,
    line_end: usize,
    // The bytes that wait. There is no line feed among those before `searched`.
    start: usize,
    searched: usize,
    end: usize,
    dropped: bool,
    ended: bool,
}

impl<'b> LineBuffer<'b> {
    /// Creates a buffer in which no bytes wait. A line of more than `limit` bytes, not counting its
    /// line ending, is too long.
    ///
    /// The buffer must be at least two bytes longer than the limit. The longer it is, the fewer
    /// reads are made. Its content is not read before it is written, and is unspecified afterwards.
    #[doc(hidden)]
    pub fn new(buffer: &'b mut [u8], limit: usize) -> LineBuffer<'b> {
        LineBuffer {
            buffer,
            limit,
            line_start: 0,
            line_end: 0,
            start: 0,
            searched: 0,
            end: 0,
            dropped: false,
            ended: false,
        }
    }

    /// Returns the line that `next` returned last, without its line ending. It is available until
    /// the next call of `ask`.
    ///
    /// ```
    /// # use cidr_programs::in_examples::*;
    /// let mut room = [0; 10];
    /// let mut lines = cidr_programs::lines::line_buffer::LineBuffer::new(&mut room, 8);
    /// assert!(lines.line().is_empty());
    /// ```
    pub fn line(&self) -> &[u8] {
        &self.buffer[self.line_start..self.line_end]
    }

    /// Returns the line that `next` returned last, with its line ending. It is available until
    /// the next call of `ask`.
    ///
    /// ```
    /// # use cidr_programs::in_examples::*;
    /// use cidr_programs::lines::watched::Watched;
    ///
    /// let mut room = [0; 10];
    /// let mut lines = cidr_programs::lines::line_buffer::LineBuffer::new(&mut room, 8);
    /// assert_eq!(lines.ask(&mut Watched::new(b"::1\r\n::2".as_slice())), Ok(8));
    /// let _ = lines.next();
    /// assert_eq!(lines.whole_line(), b"::1\r\n".as_slice());
    /// ```
    pub fn whole_line(&self) -> &[u8] {
        &self.buffer[self.line_start..self.start]
    }

    /// Returns whether the pending line is too long however it continues: whether it has at least
    /// two bytes more than the limit, one of which may be a carriage return. No line feed may wait,
    /// as is the case after `next` returned `Ask`.
    pub(crate) fn is_too_long(&self) -> bool {
        self.dropped || self.end - self.start >= self.limit + 2
    }

    /// Advances to the next line, or says why there is none. No byte is moved or copied.
    ///
    /// ```
    /// # use cidr_programs::in_examples::*;
    /// use cidr_programs::lines::line_buffer::NextLine;
    /// use cidr_programs::lines::line_end::LineEnd;
    /// use cidr_programs::lines::watched::Watched;
    ///
    /// let mut room = [0; 10];
    /// let mut lines = cidr_programs::lines::line_buffer::LineBuffer::new(&mut room, 8);
    /// assert_eq!(lines.next(), NextLine::Ask);
    /// assert_eq!(lines.ask(&mut Watched::new(b"::1\n::2".as_slice())), Ok(7));
    /// assert_eq!(lines.next(), NextLine::Line(LineEnd::LineFeed));
    /// assert_eq!(lines.next(), NextLine::Ask);
    /// ```
    pub fn next(&mut self) -> NextLine {
        let Some(cut) = self.first_cut() else {
            return self.next_unended();
        };
        self.line_start = self.start;
        self.line_end = self.start + cut.content;
        self.start += cut.before + 1;
        self.searched = self.start;
        if self.dropped {
            self.dropped = false;
            return NextLine::TooLong;
        }
        if cut.content > self.limit {
            return NextLine::TooLong;
        }
        NextLine::Line(cut.end)
    }

    // Returns the end of the first waiting line, if its line feed waits.
    fn first_cut(&self) -> Option<Cut> {
        let (start, searched, end) = (self.start, self.searched, self.end);
        let window = &self.buffer[..end];
        let at = find_far(window, searched, b'\n')?;
        Some(cut_before(&window[start..at]))
    }

    // Returns what comes next if no line feed waits.
    fn next_unended(&mut self) -> NextLine {
        self.searched = self.end;
        if !self.ended {
            return NextLine::Ask;
        }
        self.line_start = self.start;
        self.line_end = self.end;
        let count = self.end - self.start;
        self.start = self.end;
        if self.dropped {
            self.dropped = false;
            return NextLine::TooLong;
        }
        if count > self.limit {
            return NextLine::TooLong;
        }
        if count == 0 {
            return NextLine::End;
        }
        NextLine::Line(LineEnd::EndOfInput)
    }

    /// Reads from the device, in one call, and returns the number of bytes read, which is 0 only at
    /// the end of the input. They are pending after those that were pending before. No line feed
    /// may wait, as is the case after `next` returned `Ask`.
    ///
    /// Returns `RunFault::Read` if a read failed, now or earlier; a device that had failed before
    /// is not called. The pending bytes do not change.
    #[doc(hidden)]
    pub fn ask<R: Read>(&mut self, reader: &mut Watched<R>) -> Result<usize, RunFault> {
        if reader.failed() {
            return Err(RunFault::Read);
        }
        self.make_room();
        let most = self.buffer.len().min(self.end.saturating_add(MOST_AT_ONCE));
        let Ok(count) = reader.device.read(&mut self.buffer[self.end..most]) else {
            return Err(RunFault::Read);
        };
        self.end += count;
        self.ended = count == 0;
        Ok(count)
    }

    // Moves the waiting bytes to the front of the buffer, which leaves room for at least one byte
    // after them. If they fill the whole buffer, they are dropped.
    fn make_room(&mut self) {
        if self.start == 0 {
            if self.end == self.buffer.len() {
                self.dropped = true;
                self.searched = 0;
                self.end = 0;
            }
            return;
        }
        self.line_start = 0;
        self.line_end = 0;
        move_to_front(self.buffer, self.start, self.end);
        self.searched -= self.start;
        self.end -= self.start;
        self.start = 0;
    }
}

// Moves the bytes from `start` up to `end` to the front of the buffer.
fn move_to_front(buffer: &mut [u8], start: usize, end: usize) {
    buffer.copy_within(start..end, 0);
}
