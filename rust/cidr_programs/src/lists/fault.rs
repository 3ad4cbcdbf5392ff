// Written by scripts/plain out of crates/lists/src/fault.rt

//! Why a line of a list is refused.

use crate::lists::EntryFault;

/// Why a line of a list is refused.
///
/// ```
/// # use cidr_programs::in_examples::*;
/// # ended(|| {
/// let mut lists = ListReader::new(Global, Rules::lenient(), Refusals::new());
/// read_list(&mut lists, 1, &mut cidr_programs::lines::watched::Watched::new(b"10.0.0.0/33".as_slice()))?;
/// let (_, _, refusals) = lists.into_networks();
/// assert_eq!(refusals.kept()[0].fault, LineFault::Entry(EntryFault::Prefix));
/// # Ok(())
/// # });
/// ```
#[derive(Clone, Copy, Debug, PartialEq, Eq)]
pub enum LineFault {
    /// The line names no addresses.
    Entry(EntryFault),
    /// The line has more than 1,024 bytes, not counting its line end.
    Length,
}

impl LineFault {
    /// Returns the fault in a word, `length` or that of the entry, or the name of the entry's
    /// encoding.
    ///
    /// ```
    /// # use cidr_programs::in_examples::*;
    /// assert_eq!(LineFault::Entry(EntryFault::Prefix).text(), "prefix");
    /// assert_eq!(LineFault::Length.text(), "length");
    /// ```
    pub fn text(self) -> &'static str {
        match self {
            LineFault::Entry(fault) => fault.text(),
            LineFault::Length => "length",
        }
    }
}
