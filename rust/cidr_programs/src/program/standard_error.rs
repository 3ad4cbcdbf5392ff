// Written by scripts/plain out of crates/program/src/standard_error.rt

//! Standard error, which also shows how much a long reading has read.

use crate::program::progress::Progress;
use fosibegan_core::plain_std::io;
use fosibegan_core::plain_std::io::{Stderr, Write};

/// Standard error. Before each write, it removes what is shown there of a long reading.
///
/// ```
/// # use cidr_programs::in_examples::*;
/// # let rt = HostRuntime::new();
/// use cidr_programs::program::progress::Progress;
/// use cidr_programs::program::standard_error::StandardError;
/// use fosibegan_core::plain_std::io::Write;
///
/// let progress = Progress::new(&rt, true);
/// assert!(StandardError::new(rt.stderr(), &progress).flush().is_ok());
/// ```
pub struct StandardError<'a> {
    errors: Stderr,
    progress: &'a Progress<'a>,
}

impl<'a> StandardError<'a> {
    /// Creates a writer from the system's standard error and the progress that is shown there.
    ///
    /// ```
    /// # use cidr_programs::in_examples::*;
    /// # let rt = HostRuntime::new();
    /// use cidr_programs::program::progress::Progress;
    /// use cidr_programs::program::standard_error::StandardError;
    ///
    /// let progress = Progress::new(&rt, true);
    /// let _ = StandardError::new(rt.stderr(), &progress);
    /// ```
    pub fn new(errors: Stderr, progress: &'a Progress<'a>) -> StandardError<'a> {
        StandardError { errors, progress }
    }
}

impl Write for StandardError<'_> {
    fn write(&mut self, buf: &[u8]) -> io::Result<usize> {
        self.progress.clear();
        self.errors.write(buf)
    }

    fn flush(&mut self) -> io::Result<()> {
        self.errors.flush()
    }
}
