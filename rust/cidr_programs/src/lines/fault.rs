// Written by scripts/plain out of crates/lines/src/fault.rt

//! Why a run stops early.

/// Why a run stops before it has answered all of its input.
///
/// ```
/// # use cidr_programs::in_examples::*;
/// let fault = cidr_programs::lines::fault::RunFault::Write;
/// assert_eq!(fault.text(), "write error");
/// ```
#[derive(Clone, Copy, Debug, PartialEq, Eq)]
pub enum RunFault {
    /// A read failed.
    Read,
    /// A write or the flush failed.
    Write,
    /// The input has more bytes than the limit.
    InputTooLong,
}

impl RunFault {
    /// Returns the text of the fault, for a program to print.
    ///
    /// ```
    /// # use cidr_programs::in_examples::*;
    /// let fault = cidr_programs::lines::fault::RunFault::InputTooLong;
    /// assert_eq!(fault.text(), "input too long");
    /// ```
    pub fn text(self) -> &'static str {
        match self {
            RunFault::Read => "read error",
            RunFault::Write => "write error",
            RunFault::InputTooLong => "input too long",
        }
    }
}
