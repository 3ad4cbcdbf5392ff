// Written by scripts/plain out of crates/ipnetwork_sets/src/joining.rt

//! Joining a network that is added to a set with the blocks next to it.

use crate::ipnetwork_sets::check::are_halves;
use crate::ipnetwork_blocks::{AddressSpace, block};

/// The block that replaces the network, which does not lie in the set, and the blocks from the
/// first index up to, but not including, the second: those that share an address with the network,
/// and those that are joined with it. Together with the other blocks, it makes up the set with the
/// network added.
pub(crate) fn join_around<N: AddressSpace>(
    blocks: &[N],
    network: N,
    from: usize,
    to: usize,
) -> (usize, usize, N) {
    // The clauses of this call say that `network` is a network of addresses of WIDTH bits.
    let _ = network.ip();
    let mut first = from;
    let mut behind = to;
    let mut joined = block(network);
    loop {
        if let Some(wider) = join_before(blocks, first, joined) {
            first -= 1;
            joined = wider;
        } else if let Some(wider) = join_behind(blocks, joined, behind) {
            behind += 1;
            joined = wider;
        } else {
            return (first, behind, joined);
        }
    }
}

// The block before the index joined with this one, if they are the halves of one block.
fn join_before<N: AddressSpace>(blocks: &[N], first: usize, block: N) -> Option<N> {
    if first == 0 {
        return None;
    }
    join(blocks[first - 1], block)
}

// This block joined with the one at the index, if they are the halves of one block.
fn join_behind<N: AddressSpace>(blocks: &[N], block: N, behind: usize) -> Option<N> {
    if behind >= blocks.len() {
        return None;
    }
    join(block, blocks[behind])
}

// The block whose halves are these two blocks, which differ, if there is one.
fn join<N: AddressSpace>(first: N, second: N) -> Option<N> {
    if !are_halves(first, second) {
        return None;
    }
    Some(N::block_at(first.ip(), first.prefix() - 1))
}
