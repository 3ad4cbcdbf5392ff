// Written by scripts/plain out of crates/program/src/progress.rt

//! Shows on a terminal how much a long reading has read.

use fosibegan_core::plain_std::rt::HostRuntime;
use crate::program::messages::number_text;
use fosibegan_core::plain_std::arrayvec::ArrayString;
use std::cell::Cell;
use fosibegan_core::plain_std::env::FillError;
use fosibegan_core::plain_std::fs;
use fosibegan_core::plain_std::io::{IsTerminal, Write};
use fosibegan_core::plain_std::os::unix::fs::FileTypeExt;
use fosibegan_core::plain_std::rt::Env;
use fosibegan_core::plain_std::time::Instant;

/// How long a reading takes before it is shown, in milliseconds.
const PATIENCE: u128 = 2_000;

/// How long what is shown stays before it is shown anew, in milliseconds.
const PAUSE: u128 = 500;

/// The most bytes of a text that is shown.
const SHOWN_MAX: usize = 80;

/// Shows how many lines and bytes were read, in one line of standard error that is overwritten.
///
/// It is shown only if standard error is a terminal and standard output is not a pipe, so that of
/// several programs in a pipeline the last one shows it. It is shown from two seconds after the
/// start on, at most twice a second. Nothing is shown if the environment variable `NO_PROGRESS` is
/// set and not empty.
///
/// ```
/// # use cidr_programs::in_examples::*;
/// # let rt = HostRuntime::new();
/// let progress = cidr_programs::program::progress::Progress::new(&rt, true);
/// progress.count(b"10.0.0.0/8\n");
/// progress.clear();
/// ```
pub struct Progress<'a> {
    rt: &'a HostRuntime,
    // When the reading began, or `None` if nothing is shown.
    began: Option<Instant>,
    // When it is shown next, in milliseconds after the beginning.
    due: Cell<u128>,
    lines: Cell<u64>,
    bytes: Cell<u64>,
    // Whether a line is shown now.
    stands: Cell<bool>,
}

impl<'a> Progress<'a> {
    /// Creates the progress of a reading that has read nothing yet. If it `is_quiet`, nothing is
    /// shown.
    ///
    /// ```
    /// # use cidr_programs::in_examples::*;
    /// # let rt = HostRuntime::new();
    /// let _ = cidr_programs::program::progress::Progress::new(&rt, false);
    /// ```
    pub fn new(rt: &'a HostRuntime, is_quiet: bool) -> Progress<'a> {
        let began = if !is_quiet
            && rt.stderr().is_terminal()
            && !is_turned_off(rt)
            && !is_piped(rt)
        {
            Instant::now(rt).ok()
        } else {
            None
        };
        Progress {
            rt,
            began,
            due: Cell::new(PATIENCE),
            lines: Cell::new(0),
            bytes: Cell::new(0),
            stands: Cell::new(false),
        }
    }

    /// Counts these bytes as read, and shows how much was read if it is time to.
    ///
    /// ```
    /// # use cidr_programs::in_examples::*;
    /// # let rt = HostRuntime::new();
    /// cidr_programs::program::progress::Progress::new(&rt, false).count(b"10.0.0.0/8\n10.1.0.0/16\n");
    /// ```
    pub fn count(&self, read: &[u8]) {
        let Some(began) = &self.began else {
            return;
        };
        self.lines
            .set(self.lines.get().saturating_add(feeds_in(read)));
        self.bytes
            .set(self.bytes.get().saturating_add(read.len() as u64));
        let Ok(passed) = began.elapsed(self.rt) else {
            return;
        };
        let passed = passed.as_millis();
        if passed >= self.due.get() {
            self.due.set(passed.saturating_add(PAUSE));
            self.show();
        }
    }

    /// Removes what is shown, so that something else can be written in its place.
    ///
    /// ```
    /// # use cidr_programs::in_examples::*;
    /// # let rt = HostRuntime::new();
    /// cidr_programs::program::progress::Progress::new(&rt, false).clear();
    /// ```
    pub fn clear(&self) {
        if self.stands.replace(false) {
            let _ = self.rt.stderr().write_all(b"\r\x1b[K");
        }
    }

    // Shows how many lines and bytes were read, in place of what was shown before.
    fn show(&self) {
        let mut text = ArrayString::<SHOWN_MAX>::new();
        let lines = number_text(self.lines.get());
        let bytes = number_text(self.bytes.get());
        for part in [
            "\r",
            lines.as_str(),
            " lines, ",
            bytes.as_str(),
            " bytes\x1b[K",
        ] {
            let _ = text.try_push_str(part);
        }
        self.stands.set(true);
        let _ = self.rt.stderr().write_all(text.as_bytes());
    }
}

// Whether the environment says that nothing is to be shown.
fn is_turned_off(rt: &HostRuntime) -> bool {
    !matches!(
        rt.var("NO_PROGRESS", &mut [0]),
        Ok(0) | Err(FillError::NotPresent)
    )
}

// Whether standard output is a pipe. It counts as none where the system has no name for it.
fn is_piped(rt: &HostRuntime) -> bool {
    match fs::metadata(rt, "/dev/stdout") {
        Ok(metadata) => metadata.file_type().is_fifo(),
        Err(_) => false,
    }
}

// Returns the number of line feeds among these bytes.
fn feeds_in(bytes: &[u8]) -> u64 {
    bytes.iter().filter(|byte| **byte == b'\n').count() as u64
}
