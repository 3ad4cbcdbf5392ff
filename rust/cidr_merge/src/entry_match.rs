// Written by scripts/plain out of crates/cidr_merge/src/entry_match.rt

//! The entries in the lines of lists, and how they relate to networks.

use crate::placed::ends_of;
use fosibegan_core::ipnetwork::{IpAddr, IpNetwork};
use cidr_programs::lists::{
    Entry, EntryFault, LINE_MAX, LineFault, Rules, has_host_bits, read_entry_by,
};

/// How an entry relates to a network.
#[derive(Clone, Copy, Debug, PartialEq, Eq)]
pub(crate) enum Relation {
    /// It has all addresses of the network.
    HasAll,
    /// All its addresses are in the network, which has more.
    LiesIn,
    /// It has addresses of the network and others, and the network has more.
    Meets,
    /// It has no address of the network.
    Apart,
}

/// Returns the entry of a line that is read by these rules, if it has one, or why the line is
/// refused. An entry that is not refused keeps its host bits.
pub(crate) fn entry_of(rules: Rules, line: &[u8]) -> Result<Option<Entry>, LineFault> {
    // These do nothing. The proof needs the laws: the result of reading a text can be computed, and
    // the text of an address contains no blank and no `-`.
    if line.len() > LINE_MAX {
        return Err(LineFault::Length);
    }
    match read_entry_by(rules, line) {
        Ok(said) => allowed(rules, said),
        Err(fault) => Err(LineFault::Entry(fault)),
    }
}

// Returns what a line says, unless these rules refuse its entry for its host bits.
fn allowed(rules: Rules, said: Option<Entry>) -> Result<Option<Entry>, LineFault> {
    match said {
        Some(entry) if rules.refuses_host_bits && has_host_bits(&entry) => {
            Err(LineFault::Entry(EntryFault::HostBits))
        }
        _ => Ok(said),
    }
}

/// Returns how an entry relates to a network.
pub(crate) fn relation_of(entry: &Entry, network: &IpNetwork) -> Relation {
    let ends = ends_of(entry);
    let others = (network.network(), network.broadcast());
    if !do_meet(&ends, &others) {
        Relation::Apart
    } else if has_all(&ends, &others) {
        Relation::HasAll
    } else if has_all(&others, &ends) {
        Relation::LiesIn
    } else {
        Relation::Meets
    }
}

// Returns whether the addresses between two ends share one with those between two others.
fn do_meet(ends: &(IpAddr, IpAddr), others: &(IpAddr, IpAddr)) -> bool {
    is_range(&ends.0, &others.1) && is_range(&others.0, &ends.1)
}

// Returns whether the addresses between two ends have all those between two others.
fn has_all(ends: &(IpAddr, IpAddr), others: &(IpAddr, IpAddr)) -> bool {
    is_range(&ends.0, &others.0) && is_range(&others.1, &ends.1)
}

// Returns whether the addresses are of one family and the first is not greater than the last.
fn is_range(first: &IpAddr, last: &IpAddr) -> bool {
    if let (IpAddr::V4(_), IpAddr::V6(_)) = (first, last) {
        return false;
    }
    first <= last
}
