// Written by scripts/plain out of crates/log_programs/src/log_stats.rt

//! Counts the lines of a log.

/// The counts of the lines of a log. Each number stops at 2^64 - 1.
#[derive(Clone, Copy, Debug, PartialEq, Eq)]
pub struct LogStats {
    /// The number of lines counted.
    pub lines: u64,
    /// Whether one of them has an address in the area searched.
    pub is_addressed: bool,
    /// The number of lines that are not too long and have no address there.
    pub bare: u64,
    /// The number of lines that are too long.
    pub long: u64,
    /// The number of the first line that is too long, from 1 on, or 0 if none is.
    pub first_long: u64,
}

impl LogStats {
    /// Returns the counts of no lines.
    ///
    /// ```
    /// # use cidr_programs::in_examples::*;
    /// assert_eq!(cidr_programs::log_programs::log_stats::LogStats::new().lines, 0);
    /// ```
    pub fn new() -> LogStats {
        LogStats {
            lines: 0,
            is_addressed: false,
            bare: 0,
            long: 0,
            first_long: 0,
        }
    }

    /// Counts a line that is not too long, with or without an address in the area searched.
    ///
    /// ```
    /// # use cidr_programs::in_examples::*;
    /// let mut seen = cidr_programs::log_programs::log_stats::LogStats::new();
    /// seen.add(false);
    /// seen.add(true);
    /// assert!(seen.lines == 2 && seen.bare == 1 && seen.is_addressed);
    /// ```
    #[inline(always)]
    pub fn add(&mut self, is_addressed: bool) {
        self.lines = self.lines.saturating_add(1);
        if is_addressed {
            self.is_addressed = true;
        } else {
            self.bare = self.bare.saturating_add(1);
        }
    }

    /// Counts a line that is too long.
    ///
    /// ```
    /// # use cidr_programs::in_examples::*;
    /// let mut seen = cidr_programs::log_programs::log_stats::LogStats::new();
    /// seen.add(true);
    /// seen.add_long();
    /// seen.add_long();
    /// assert!(seen.lines == 3 && seen.long == 2 && seen.first_long == 2);
    /// ```
    pub fn add_long(&mut self) {
        self.lines = self.lines.saturating_add(1);
        self.long = self.long.saturating_add(1);
        if self.first_long == 0 {
            self.first_long = self.lines;
        }
    }
}
