// Written by scripts/plain out of crates/ipnetwork_sets/src/place.rt

//! The indices of the blocks of a set that change with a network.

use crate::ipnetwork_sets::search::count_up_to;
use crate::ipnetwork_blocks::AddressSpace;

/// The indices of the blocks that share an address with the network: from the first up to, but not
/// including, the second. Takes two binary searches and one test of a block.
pub(crate) fn place_of<N: AddressSpace>(blocks: &[N], network: N) -> (usize, usize) {
    // The clauses of this call say that `network` is a network of addresses of WIDTH bits.
    let _ = network.ip();
    let from = count_before(blocks, network);
    (from, count_up_to(blocks, network.broadcast()))
}

// The number of blocks that end before the network begins.
fn count_before<N: AddressSpace>(blocks: &[N], network: N) -> usize {
    // The clauses of this call say that `network` is a network of addresses of WIDTH bits.
    let _ = network.ip();
    let begun = count_up_to(blocks, network.network());
    if begun == 0 {
        return 0;
    }
    if blocks[begun - 1].overlaps(network) {
        return begun - 1;
    }
    begun
}
