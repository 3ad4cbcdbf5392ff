// Written by scripts/plain out of crates/log_programs/src/without_address.rt

//! What happens to lines without an address, and to lines that are too long.

/// What happens to a line without an address.
#[derive(Clone, Copy, Debug, PartialEq, Eq)]
pub enum WithoutAddress {
    /// The option is not given: the program's default.
    Unsaid,
    /// It is left out, and so is a line that is too long, which is not reported.
    Drop,
    /// It is kept.
    Keep,
    /// It ends the run, and so does a line that is too long.
    Stop,
    /// As `Unsaid`, and the numbers of such lines and of lines that are too long are reported.
    Report,
}

impl WithoutAddress {
    /// Returns whether such lines are left out.
    ///
    /// ```
    /// # use cidr_programs::in_examples::*;
    /// use cidr_programs::log_programs::without_address::WithoutAddress;
    ///
    /// assert!(WithoutAddress::Drop.is_dropped() && !WithoutAddress::Unsaid.is_dropped());
    /// ```
    pub fn is_dropped(self) -> bool {
        matches!(self, WithoutAddress::Drop)
    }

    /// Returns whether the first of them ends the run.
    ///
    /// ```
    /// # use cidr_programs::in_examples::*;
    /// use cidr_programs::log_programs::without_address::WithoutAddress;
    ///
    /// assert!(WithoutAddress::Stop.is_stopped() && !WithoutAddress::Keep.is_stopped());
    /// ```
    pub fn is_stopped(self) -> bool {
        matches!(self, WithoutAddress::Stop)
    }

    /// Returns whether their number is reported.
    ///
    /// ```
    /// # use cidr_programs::in_examples::*;
    /// use cidr_programs::log_programs::without_address::WithoutAddress;
    ///
    /// assert!(WithoutAddress::Report.is_reported() && !WithoutAddress::Drop.is_reported());
    /// ```
    pub fn is_reported(self) -> bool {
        matches!(self, WithoutAddress::Report)
    }
}

/// Returns what happens to such lines, by a value of `--bad`, which is empty if there is none.
///
/// ```
/// # use cidr_programs::in_examples::*;
/// use cidr_programs::log_programs::without_address::{WithoutAddress, bad_in};
///
/// assert_eq!(bad_in("stop"), WithoutAddress::Stop);
/// assert_eq!(bad_in(""), WithoutAddress::Unsaid);
/// ```
pub fn bad_in(value: &str) -> WithoutAddress {
    match value {
        "drop" => WithoutAddress::Drop,
        "keep" => WithoutAddress::Keep,
        "stop" => WithoutAddress::Stop,
        "report" => WithoutAddress::Report,
        _ => WithoutAddress::Unsaid,
    }
}
