// Written by scripts/plain out of crates/lists/src/range.rt

//! Reads a range of addresses.

use crate::lists::entry::{Entry, EntryFault};
use crate::lists::trimming::{Blank, trim};
use fosibegan_core::ipnetwork::IpAddr;

/// Returns the range between the ends that these texts name, or why there is none.
pub(crate) fn read_range(before: &[u8], after: &[u8]) -> Result<Entry, EntryFault> {
    let Ok(first) = IpAddr::read_bytes(trim::<Blank>(before)) else {
        return Err(EntryFault::Address);
    };
    let Ok(last) = IpAddr::read_bytes(trim::<Blank>(after)) else {
        return Err(EntryFault::Address);
    };
    between(first, last)
}

/// Returns the range from one address to another, or the fault that they are the ends of none.
fn between(first: IpAddr, last: IpAddr) -> Result<Entry, EntryFault> {
    if !is_range(&first, &last) {
        return Err(EntryFault::Range);
    }
    let range = Entry::Range { first, last };
    Ok(range)
}

/// Whether the addresses are of one family, and the first is not after the last.
fn is_range(first: &IpAddr, last: &IpAddr) -> bool {
    if let (IpAddr::V4(_), IpAddr::V6(_)) = (first, last) {
        return false;
    }
    first <= last
}
