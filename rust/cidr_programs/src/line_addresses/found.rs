// Written by scripts/plain out of crates/line_addresses/src/found.rt

//! The next address of a line.

use crate::line_addresses::run::{address_in, run_end};
use fosibegan_core::ipnetwork_addr::IpAddr;

/// An address of a line, and the position of its text.
#[derive(Clone, Copy, Debug, PartialEq, Eq)]
pub struct Found {
    /// The address.
    pub address: IpAddr,
    /// The index of the first byte of its text.
    pub start: usize,
    /// The index after the last byte of its text.
    pub end: usize,
    /// The index from which to look for the next address.
    pub next: usize,
}

/// Returns the first address of a line from the index `from` on, or `None` if there is none. `from`
/// must be at most the length of the line. What precedes it is ignored: the rest is read as a line.
#[doc(hidden)]
pub fn next_address(line: &[u8], from: usize) -> Option<Found> {
    let mut at = from;
    'runs: while at < line.len() {
        let end = run_end(line, at);
        if end == at {
            at += 1;
            continue 'runs;
        }
        if let Some(found) = address_in(&line[at..end]) {
            return Some(Found {
                address: found.address,
                start: at + found.start,
                end: at + found.end,
                next: end,
            });
        }
        // The run ends at the line's end or at a byte that is not a run byte.
        at = end + 1;
    }
    None
}
