// Written by scripts/plain out of crates/ipnetwork_index/src/listing.rt

//! The blocks of a list of networks, in order.

use crate::plain_std::vec::Vec;
use crate::ipnetwork_index::indexed_network::IndexedNetwork;
use crate::ipnetwork_blocks::block;
use crate::plain_std::alloc::{AllocError, Global};

/// The blocks of the networks in order, each once and with this value.
pub(crate) fn entries_of_list<N: IndexedNetwork, V: Copy>(
    alloc: Global,
    networks: &[N],
    value: V,
) -> Result<Vec<(N, V)>, AllocError> {
    let mut blocks = blocks_of(alloc, networks)?;
    blocks.sort_unstable();
    blocks.dedup();
    let entries = with_value(alloc, blocks.as_slice(), value)?;
    Ok(entries)
}

// The block of each network.
fn blocks_of<N: IndexedNetwork>(alloc: Global, networks: &[N]) -> Result<Vec<N>, AllocError> {
    let mut blocks = Vec::with_capacity(alloc, networks.len())?;
    for network in networks {
        blocks.push(block(*network))?;
    }
    Ok(blocks)
}

// The blocks, each with this value.
fn with_value<N: IndexedNetwork, V: Copy>(
    alloc: Global,
    blocks: &[N],
    value: V,
) -> Result<Vec<(N, V)>, AllocError> {
    let mut entries = Vec::with_capacity(alloc, blocks.len())?;
    for block in blocks {
        entries.push((*block, value))?;
    }
    Ok(entries)
}
