// Written by scripts/plain out of crates/program/src/log_reader.rt

//! Reads the lines of a log.

use crate::program::log_fault::LogFault;
use crate::lines::fault::RunFault;
use crate::lines::line_buffer::{LineBuffer, NextLine};
use crate::lines::line_end::LineEnd;
use crate::lines::output::Output;
use crate::lines::watched::Watched;
use fosibegan_core::plain_std::io::{Read, Write};

/// The most bytes of a line, not counting its line end.
pub const LINE_MAX: usize = 1_048_576;

/// The number of bytes of a buffer: those of the longest line, and room for what is read with it.
pub const BUFFER_LEN: usize = LINE_MAX + 2 + 262_144;

/// What comes next in a log.
///
/// ```
/// # use cidr_programs::in_examples::*;
/// # use fosibegan_core::plain_std::vec;
/// # ended(|| {
/// use cidr_programs::lines::output::Output;
/// use cidr_programs::lines::watched::Watched;
/// use cidr_programs::program::log_reader::{BUFFER_LEN, LogReader, NextLogLine};
///
/// let mut buffer = vec![in Global; 0u8; BUFFER_LEN]?;
/// let mut slice = [0; 8];
/// let mut output = Output::new(Vec::new(Global), &mut slice);
/// let mut log = LogReader::new(buffer.as_mut_slice(), false);
/// assert_eq!(log.next(&mut Watched::new(b"".as_slice()), &mut output), Ok(NextLogLine::End));
/// # Ok(())
/// # });
/// ```
#[derive(Clone, Copy, Debug, PartialEq, Eq)]
pub enum NextLogLine {
    /// A line, which `LogReader::line` returns, and how it ended.
    Line(LineEnd),
    /// A line of more than 1,048,576 bytes, not counting its line end.
    TooLong,
    /// No line: the log has ended.
    End,
}

/// Reads the lines of a log.
///
/// `next` returns one line after another, each where it is in the buffer. Before it asks the
/// device for more bytes, and at the end of the log, it writes what waits in an output: whatever is
/// written for the lines of one read reaches the writer before the next read.
///
/// ```
/// # use cidr_programs::in_examples::*;
/// # use fosibegan_core::plain_std::vec;
/// # ended(|| {
/// use cidr_programs::lines::line_end::LineEnd;
/// use cidr_programs::lines::output::Output;
/// use cidr_programs::lines::watched::Watched;
/// use cidr_programs::program::log_reader::{BUFFER_LEN, LogReader, NextLogLine};
///
/// let mut buffer = vec![in Global; 0u8; BUFFER_LEN]?;
/// let mut slice = [0; 8];
/// let mut output = Output::new(Vec::new(Global), &mut slice);
/// let mut reader = Watched::new(b"10.1.1.1 GET\n".as_slice());
/// let mut log = LogReader::new(buffer.as_mut_slice(), false);
/// assert_eq!(log.next(&mut reader, &mut output), Ok(NextLogLine::Line(LineEnd::LineFeed)));
/// assert_eq!(log.line(), b"10.1.1.1 GET".as_slice());
/// # Ok(())
/// # });
/// ```
pub struct LogReader<'b> {
    lines: LineBuffer<'b>,
    // How many more bytes may be read.
    room: u64,
    // Whether a line that is too long is reported before its end was read.
    hurries: bool,
}

impl<'b> LogReader<'b> {
    /// Creates a reader of a log of which nothing was read yet.
    ///
    /// `buffer` must have at least 1,048,578 bytes; `BUFFER_LEN` is the length to use. If the
    /// reader `hurries`, it reports a line that is too long as soon as it knows, and that line is
    /// then the last.
    #[doc(hidden)]
    pub fn new(buffer: &'b mut [u8], hurries: bool) -> LogReader<'b> {
        LogReader {
            lines: LineBuffer::new(buffer, LINE_MAX),
            room: u64::MAX,
            hurries,
        }
    }

    /// Returns the line that `next` returned last, without the bytes that end it.
    ///
    /// ```
    /// # use cidr_programs::in_examples::*;
    /// # use fosibegan_core::plain_std::vec;
    /// # ended(|| {
    /// use cidr_programs::program::log_reader::{BUFFER_LEN, LogReader};
    ///
    /// let mut buffer = vec![in Global; 0u8; BUFFER_LEN]?;
    /// assert!(LogReader::new(buffer.as_mut_slice(), false).line().is_empty());
    /// # Ok(())
    /// # });
    /// ```
    pub fn line(&self) -> &[u8] {
        self.lines.line()
    }

    /// Returns the line that `next` returned last, with the bytes that end it.
    ///
    /// ```
    /// # use cidr_programs::in_examples::*;
    /// # use fosibegan_core::plain_std::vec;
    /// # ended(|| {
    /// use cidr_programs::program::log_reader::{BUFFER_LEN, LogReader};
    ///
    /// let mut buffer = vec![in Global; 0u8; BUFFER_LEN]?;
    /// assert!(LogReader::new(buffer.as_mut_slice(), false).whole_line().is_empty());
    /// # Ok(())
    /// # });
    /// ```
    pub fn whole_line(&self) -> &[u8] {
        self.lines.whole_line()
    }

    /// Returns the next line, or says that there is none. What waits in the output is written
    /// before the device is asked for more bytes, and at the end of the log.
    ///
    /// An error is returned if a read or a write failed, now or earlier (`LogFault::Read`,
    /// `LogFault::Write`), or if more bytes were read than 64 bits count (`LogFault::Endless`).
    /// After a failed read, nothing waits in the output.
    ///
    /// ```
    /// # use cidr_programs::in_examples::*;
    /// # use fosibegan_core::plain_std::vec;
    /// # ended(|| {
    /// use cidr_programs::lines::line_end::LineEnd;
    /// use cidr_programs::lines::output::Output;
    /// use cidr_programs::lines::watched::Watched;
    /// use cidr_programs::program::log_reader::{BUFFER_LEN, LogReader, NextLogLine};
    ///
    /// let mut buffer = vec![in Global; 0u8; BUFFER_LEN]?;
    /// let mut slice = [0; 8];
    /// let mut output = Output::new(Vec::new(Global), &mut slice);
    /// let mut reader = Watched::new(b"10.1.1.1 GET".as_slice());
    /// let mut log = LogReader::new(buffer.as_mut_slice(), false);
    /// assert_eq!(log.next(&mut reader, &mut output), Ok(NextLogLine::Line(LineEnd::EndOfInput)));
    /// assert_eq!(log.next(&mut reader, &mut output), Ok(NextLogLine::End));
    /// # Ok(())
    /// # });
    /// ```
    pub fn next<R: Read, W: Write>(
        &mut self,
        reader: &mut Watched<R>,
        output: &mut Output<'_, W>,
    ) -> Result<NextLogLine, LogFault> {
        'asks: loop {
            match self.lines.next() {
                NextLine::Line(end) => return Ok(NextLogLine::Line(end)),
                NextLine::TooLong => return Ok(NextLogLine::TooLong),
                NextLine::Ask => {
                    let Ok(_) = output.hand_on() else {
                        return Err(LogFault::Write);
                    };
                    if self.hurries && self.lines.is_too_long() {
                        return Ok(NextLogLine::TooLong);
                    }
                    let Ok(count) = self.lines.ask(reader) else {
                        return Err(LogFault::Read);
                    };
                    if count as u64 > self.room {
                        return Err(LogFault::Endless);
                    }
                    self.room -= count as u64;
                }
                NextLine::End => match output.hand_on() {
                    Ok(()) => return Ok(NextLogLine::End),
                    Err(_) => return Err(LogFault::Write),
                },
            }
        }
    }
}

/// Writes a line feed after a line that had none.
///
/// ```
/// # use cidr_programs::in_examples::*;
/// use cidr_programs::lines::line_end::LineEnd;
/// use cidr_programs::lines::output::Output;
/// use cidr_programs::program::log_reader::put_feed;
///
/// let (mut slice, mut room) = ([0; 8], [b'.'; 2]);
/// let mut output = Output::new(room.as_mut_slice(), &mut slice);
/// assert_eq!(put_feed(LineEnd::LineFeed, &mut output), Ok(()));
/// assert_eq!(put_feed(LineEnd::EndOfInput, &mut output), Ok(()));
/// assert_eq!(output.finish(), Ok(()));
/// drop(output);
/// assert_eq!(room, *b"\n.");
/// ```
pub fn put_feed<W: Write>(end: LineEnd, output: &mut Output<'_, W>) -> Result<(), RunFault> {
    match end {
        LineEnd::LineFeed => Ok(()),
        LineEnd::ReturnAndLineFeed => Ok(()),
        LineEnd::EndOfInput => output.put(b"\n"),
    }
}
