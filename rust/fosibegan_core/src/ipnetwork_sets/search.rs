// Written by scripts/plain out of crates/ipnetwork_sets/src/search.rt

//! Queries on a set, each by one binary search for the last block that begins at or before an
//! address.

use crate::ipnetwork_blocks::AddressSpace;

/// Whether the address is in the set.
pub(crate) fn contains<N: AddressSpace>(blocks: &[N], addr: N::Addr) -> bool {
    match last_up_to(blocks, addr) {
        Some(block) => block.contains(addr),
        None => false,
    }
}

/// Whether each address of the network is in the set.
pub(crate) fn covers<N: AddressSpace>(blocks: &[N], network: N) -> bool {
    // The clauses of this call say that `network` is a network of addresses of WIDTH bits.
    let _ = network.ip();
    match last_up_to(blocks, network.network()) {
        Some(block) => network.is_subnet_of(block),
        None => false,
    }
}

/// Whether some address of the network is in the set.
pub(crate) fn overlaps<N: AddressSpace>(blocks: &[N], network: N) -> bool {
    // The clauses of this call say that `network` is a network of addresses of WIDTH bits.
    let _ = network.ip();
    match last_up_to(blocks, network.broadcast()) {
        Some(block) => network.overlaps(block),
        None => false,
    }
}

// The last of the blocks that begin at or before the address.
fn last_up_to<N: AddressSpace>(blocks: &[N], addr: N::Addr) -> Option<N> {
    let count = count_up_to(blocks, addr);
    if count == 0 {
        return None;
    }
    Some(blocks[count - 1])
}

/// The number of blocks that begin at or before the address.
#[inline(always)]
pub(crate) fn count_up_to<N: AddressSpace>(blocks: &[N], addr: N::Addr) -> usize {
    blocks.partition_point(
        |block: &N| -> bool { begins_up_to(*block, addr) },
    )
}

// Whether the network's own address is at or before the address `addr`.
fn begins_up_to<N: AddressSpace>(network: N, addr: N::Addr) -> bool {
    network.ip() <= addr
}
