// Written by scripts/plain out of crates/program/src/standard_output.rt

//! Standard output, which may be a pipe that its reader closes.

use crate::program::progress::Progress;
use std::cell::Cell;
use fosibegan_core::plain_std::io;
use fosibegan_core::plain_std::io::{ErrorKind, Stdout, Write};

/// Standard output, which notes why a write failed, such as that nobody reads its pipe any more.
/// Before each write, it removes what is shown of a long reading.
///
/// ```
/// # use cidr_programs::in_examples::*;
/// # let rt = HostRuntime::new();
/// use cidr_programs::program::progress::Progress;
/// use cidr_programs::program::standard_output::StandardOutput;
/// use fosibegan_core::plain_std::io::Write;
///
/// let (progress, failure) = (Progress::new(&rt, true), std::cell::Cell::new(None));
/// let mut output = StandardOutput::new(rt.stdout(), &progress, &failure);
/// assert!(output.flush().is_ok());
/// assert!(failure.get().is_none());
/// ```
pub struct StandardOutput<'a> {
    output: Stdout,
    progress: &'a Progress<'a>,
    failure: &'a Cell<Option<ErrorKind>>,
}

impl<'a> StandardOutput<'a> {
    /// Creates a writer from the system's standard output, the progress that is shown on standard
    /// error, and the cell that notes the kind of the system's error when a write fails.
    ///
    /// ```
    /// # use cidr_programs::in_examples::*;
    /// # let rt = HostRuntime::new();
    /// use cidr_programs::program::progress::Progress;
    /// use cidr_programs::program::standard_output::StandardOutput;
    ///
    /// let (progress, failure) = (Progress::new(&rt, true), std::cell::Cell::new(None));
    /// let _ = StandardOutput::new(rt.stdout(), &progress, &failure);
    /// assert!(failure.get().is_none());
    /// ```
    pub fn new(
        output: Stdout,
        progress: &'a Progress<'a>,
        failure: &'a Cell<Option<ErrorKind>>,
    ) -> StandardOutput<'a> {
        StandardOutput {
            output,
            progress,
            failure,
        }
    }
}

impl Write for StandardOutput<'_> {
    fn write(&mut self, buf: &[u8]) -> io::Result<usize> {
        self.progress.clear();
        let result = self.output.write(buf);
        if let Err(error) = &result {
            self.failure.set(Some(error.kind()));
        }
        result
    }

    fn flush(&mut self) -> io::Result<()> {
        self.output.flush()
    }
}
