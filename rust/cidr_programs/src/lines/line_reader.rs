// Written by scripts/plain out of crates/lines/src/line_reader.rt

//! A device whose input is read line by line.

use crate::lines::fault::RunFault;
use crate::lines::line_buffer::{LineBuffer, NextLine};
use crate::lines::watched::Watched;
use fosibegan_core::plain_std::io::Read;

/// A device, and a `LineBuffer` of the bytes read from it.
///
/// ```
/// # use cidr_programs::in_examples::*;
/// use cidr_programs::lines::line_buffer::NextLine;
/// use cidr_programs::lines::line_end::LineEnd;
/// use cidr_programs::lines::watched::Watched;
///
/// let reader = Watched::new(b"10.0.0.0/8\r\n".as_slice());
/// let mut room = [0; 64];
/// let mut lines = cidr_programs::lines::line_reader::LineReader::new(reader, &mut room, 32);
/// assert_eq!(lines.ask(), Ok(12));
/// assert_eq!(lines.next(), NextLine::Line(LineEnd::ReturnAndLineFeed));
/// assert_eq!(lines.line(), b"10.0.0.0/8".as_slice());
/// assert_eq!((lines.next(), lines.ask(), lines.next()), (NextLine::Ask, Ok(0), NextLine::End));
/// ```
pub struct LineReader<'b, R> {
    source: Watched<R>,
    buffer: LineBuffer<'b>,
}

impl<'b, R: Read> LineReader<'b, R> {
    /// Creates a reader of the lines of a device, none of which is read yet. A line of more than
    /// `limit` bytes, not counting its line ending, is too long. The buffer must be at least two
    /// bytes longer than the limit.
    #[doc(hidden)]
    pub fn new(source: Watched<R>, buffer: &'b mut [u8], limit: usize) -> LineReader<'b, R> {
        LineReader {
            source,
            buffer: LineBuffer::new(buffer, limit),
        }
    }

    /// Returns the line that `next` returned last, without its line ending. It is available until
    /// the next call of `ask`.
    ///
    /// ```
    /// # use cidr_programs::in_examples::*;
    /// use cidr_programs::lines::line_reader::LineReader;
    /// use cidr_programs::lines::watched::Watched;
    ///
    /// let mut room = [0; 64];
    /// let mut lines = LineReader::new(Watched::new(b"::1\n".as_slice()), &mut room, 32);
    /// assert_eq!(lines.ask(), Ok(4));
    /// let _ = lines.next();
    /// assert_eq!(lines.line(), b"::1".as_slice());
    /// ```
    pub fn line(&self) -> &[u8] {
        self.buffer.line()
    }

    /// Returns the line that `next` returned last, with its line ending. It is available until
    /// the next call of `ask`.
    ///
    /// ```
    /// # use cidr_programs::in_examples::*;
    /// use cidr_programs::lines::line_reader::LineReader;
    /// use cidr_programs::lines::watched::Watched;
    ///
    /// let mut room = [0; 64];
    /// let mut lines = LineReader::new(Watched::new(b"::1\n".as_slice()), &mut room, 32);
    /// assert_eq!(lines.ask(), Ok(4));
    /// let _ = lines.next();
    /// assert_eq!(lines.whole_line(), b"::1\n".as_slice());
    /// ```
    pub fn whole_line(&self) -> &[u8] {
        self.buffer.whole_line()
    }

    /// Returns whether the pending line is too long however it continues: whether it has at least
    /// two bytes more than the limit, one of which may be a carriage return. No line feed may wait,
    /// as is the case after `next` returned `Ask`.
    pub(crate) fn is_too_long(&self) -> bool {
        self.buffer.is_too_long()
    }

    /// Advances to the next line, or says why there is none. The device is not called, and no byte
    /// is moved or copied.
    ///
    /// ```
    /// # use cidr_programs::in_examples::*;
    /// use cidr_programs::lines::line_buffer::NextLine;
    /// use cidr_programs::lines::line_reader::LineReader;
    /// use cidr_programs::lines::watched::Watched;
    ///
    /// let mut room = [0; 64];
    /// let mut lines = LineReader::new(Watched::new(b"".as_slice()), &mut room, 32);
    /// assert_eq!(lines.next(), NextLine::Ask);
    /// assert_eq!(lines.ask(), Ok(0));
    /// assert_eq!(lines.next(), NextLine::End);
    /// ```
    pub fn next(&mut self) -> NextLine {
        self.buffer.next()
    }

    /// Reads from the device, in one call, and returns the number of bytes read, which is 0 only at
    /// the end of the input. They are pending after those that were pending before. No line feed
    /// may wait, as is the case after `next` returned `Ask`.
    ///
    /// Returns `RunFault::Read` if a read failed, now or earlier; a device that had failed before
    /// is not called. The pending bytes do not change.
    #[doc(hidden)]
    pub fn ask(&mut self) -> Result<usize, RunFault> {
        self.buffer.ask(&mut self.source)
    }

    /// Returns the device.
    ///
    /// ```
    /// # use cidr_programs::in_examples::*;
    /// use cidr_programs::lines::line_reader::LineReader;
    /// use cidr_programs::lines::watched::Watched;
    ///
    /// let mut room = [0; 64];
    /// let lines = LineReader::new(Watched::new(b"::1".as_slice()), &mut room, 32);
    /// assert_eq!(lines.into_inner().into_inner(), b"::1".as_slice());
    /// ```
    pub fn into_inner(self) -> Watched<R> {
        self.source
    }
}
