// Written by scripts/plain out of crates/ipnetwork_sets/src/changes.rt

//! Adding networks to a set and removing them, in place.

use crate::plain_std::vec::Vec;
use crate::ipnetwork_sets::joining::join_around;
use crate::ipnetwork_sets::place::place_of;
use crate::ipnetwork_sets::replacing::{make_room, write_over};
use crate::ipnetwork_sets::search::covers;
use crate::ipnetwork_blocks::{AddressSpace, aggregate_vec, exclude};
use crate::plain_std::alloc::AllocError;

/// Adds the addresses of the network to the set with these blocks, and returns whether any of them
/// is new.
pub(crate) fn insert<N: AddressSpace>(blocks: &mut Vec<N>, network: N) -> Result<bool, AllocError> {
    let Some(found) = block_to_add(blocks.as_slice(), network) else {
        return Ok(false);
    };
    make_room(blocks, found.0, found.1, 1)?;
    blocks[found.0] = found.2;
    Ok(true)
}

/// Adds the addresses of the networks to the set with these blocks.
pub(crate) fn insert_all<N: AddressSpace>(
    blocks: &mut Vec<N>,
    networks: &[N],
) -> Result<(), AllocError> {
    blocks.extend_from_slice(networks)?;
    aggregate_vec(blocks);
    Ok(())
}

// The block that replaces the network and the blocks from the first index up to, but not including,
// the second; `None` if each address of the network is in the set.
fn block_to_add<N: AddressSpace>(blocks: &[N], network: N) -> Option<(usize, usize, N)> {
    if covers(blocks, network) {
        return None;
    }
    let (from, to) = place_of(blocks, network);
    Some(join_around(blocks, network, from, to))
}

/// Removes the addresses of the network from the set with these blocks, and returns whether any of
/// them was in it.
pub(crate) fn remove<N: AddressSpace>(blocks: &mut Vec<N>, network: N) -> Result<bool, AllocError> {
    // The clauses of this call say that `network` is a network of addresses of WIDTH bits.
    let _ = network.ip();
    let (from, to) = place_of(blocks.as_slice(), network);
    if from == to {
        return Ok(false);
    }
    let whole = blocks[from];
    let left = exclude(whole, network);
    let count = network.prefix().saturating_sub(whole.prefix());
    make_room(blocks, from, to, count)?;
    write_over(blocks.as_mut_slice(), from, left);
    Ok(true)
}
