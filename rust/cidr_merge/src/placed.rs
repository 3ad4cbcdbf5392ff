// Written by scripts/plain out of crates/cidr_merge/src/placed.rt

//! The entries of lists, in order.

use fosibegan_core::plain_std::vec::Vec;
use crate::entry_match::entry_of;
use crate::numbered_lines::{Line, NumberedLines};
use crate::texts::WholeLists;
use fosibegan_core::ipnetwork::IpAddr;
use cidr_programs::lists::{Entry, Rules};
use fosibegan_core::plain_std::alloc::{AllocError, Global};
use std::cmp::Reverse;

/// An address: whether it is an IPv6 address, and its number. Keys are ordered as addresses are.
pub(crate) type Key = (bool, u128);

/// An entry. The derived order is by the first address, then the last address in descending order,
/// the list, and the line.
#[derive(Clone, Copy, Debug, PartialEq, Eq, PartialOrd, Ord)]
pub(crate) struct Placed {
    /// The first address.
    pub first: Key,
    /// The last address.
    pub last: Reverse<Key>,
    /// The index of the list among the lists.
    pub list: usize,
    /// The number of the line, from 1.
    pub number: usize,
}

/// Returns the entries of lists, in order, or `AllocError` if memory runs out.
pub(crate) fn entries_of(alloc: Global, lists: &WholeLists<'_>) -> Result<Vec<Placed>, AllocError> {
    let mut entries = Vec::new(alloc);
    let mut lines = NumberedLines::of(lists);
    while let Some(line) = lines.next() {
        add_line(lists.rules, &line, &mut entries)?;
    }
    entries.sort_unstable();
    Ok(entries)
}

// Adds the entry of a line that is read by these rules, if it has one.
fn add_line(rules: Rules, line: &Line<'_>, entries: &mut Vec<Placed>) -> Result<(), AllocError> {
    if let Ok(Some(entry)) = entry_of(rules, line.text) {
        let (first, last) = ends_of(&entry);
        entries.push(Placed {
            first: key_of(&first),
            last: Reverse(key_of(&last)),
            list: line.list,
            number: line.number,
        })?;
    }
    Ok(())
}

/// Returns the first and the last address of an entry.
pub(crate) fn ends_of(entry: &Entry) -> (IpAddr, IpAddr) {
    match entry {
        Entry::Network(network) => (network.network(), network.broadcast()),
        Entry::Range { first, last } => (*first, *last),
    }
}

/// Returns an address as a key.
pub(crate) fn key_of(address: &IpAddr) -> Key {
    match address {
        IpAddr::V4(address) => (false, u128::from(u32::from(*address))),
        IpAddr::V6(address) => (true, u128::from(*address)),
    }
}
