// Written by scripts/plain out of crates/ipnetwork_index/src/edges.rt

//! Where the blocks of a table begin and end, as the last addresses of ranges.

use crate::plain_std::vec::Vec;
use crate::ipnetwork_index::cuts::closed;
use crate::ipnetwork_index::indexed_network::IndexedNetwork;
use crate::plain_std::alloc::{AllocError, Global};

// The last addresses of ranges, each of which lies entirely inside or entirely outside each block
// of the table with these entries.
pub(crate) fn ranges_of<N: IndexedNetwork, V: Copy>(
    alloc: Global,
    entries: &[(N, V)],
) -> Result<Vec<N::Addr>, AllocError> {
    let mut edges = edges_of(alloc, entries)?;
    edges.sort_unstable();
    edges.dedup();
    let lasts = closed::<N>(edges)?;
    Ok(lasts)
}

// For each block, the last address before it, if any, and its own last address.
fn edges_of<N: IndexedNetwork, V: Copy>(
    alloc: Global,
    entries: &[(N, V)],
) -> Result<Vec<N::Addr>, AllocError> {
    let mut edges = Vec::with_capacity(alloc, entries.len().saturating_mul(2).saturating_add(1))?;
    for entry in entries {
        let block = entry.0;
        if let Some(before) = N::previous_address(block.network()) {
            edges.push(before)?;
        }
        edges.push(block.broadcast())?;
    }
    Ok(edges)
}
