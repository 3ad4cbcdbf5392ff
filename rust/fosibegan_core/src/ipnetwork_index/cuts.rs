// Written by scripts/plain out of crates/ipnetwork_index/src/cuts.rt

//! Where a set begins and ends, as the last addresses of ranges.

use crate::plain_std::vec::Vec;
use crate::ipnetwork_index::indexed_network::IndexedNetwork;
use crate::ipnetwork_sets::AddressSet;
use crate::plain_std::alloc::{AllocError, Global};

// For each range of the set, the last address before it, if any, and its own last address.
pub(crate) fn cuts_of<N: IndexedNetwork>(
    alloc: Global,
    set: &AddressSet<N>,
) -> Result<Vec<N::Addr>, AllocError> {
    let mut cuts = Vec::new(alloc);
    let mut ranges = set.ranges();
    'cutting: while let Some(range) = ranges.next() {
        if let Some(before) = N::previous_address(range.0) {
            cuts.push(before)?;
        }
        cuts.push(range.1)?;
    }
    Ok(cuts)
}

// The cuts and, unless they end with it, the last address of all.
pub(crate) fn closed<N: IndexedNetwork>(mut cuts: Vec<N::Addr>) -> Result<Vec<N::Addr>, AllocError> {
    if ends_whole::<N>(cuts.as_slice()) {
        return Ok(cuts);
    }
    cuts.push(N::whole().broadcast())?;
    Ok(cuts)
}

// Whether the last of the cuts is the last address of all.
fn ends_whole<N: IndexedNetwork>(cuts: &[N::Addr]) -> bool {
    let count = cuts.len();
    if count == 0 {
        return false;
    }
    match N::next_address(cuts[count - 1]) {
        None => true,
        Some(_) => false,
    }
}
