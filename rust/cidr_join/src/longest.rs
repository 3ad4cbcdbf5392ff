// Written by scripts/plain out of crates/cidr_join/src/longest.rt

//! The longest network of an index that has all addresses of another network.

use fosibegan_core::ipnetwork_index::{IndexedNetwork, RouteIndex};
use fosibegan_core::ipnetwork_table::PrefixTable;

/// The longest network of the index that has all addresses of this one, and its value. One look-up
/// finds it, unless a longer network than this one has its address: then the table is asked for
/// each prefix length from this one's down. Does not allocate.
#[inline(always)]
pub(crate) fn longest_over<N: IndexedNetwork, V: Copy>(
    index: &RouteIndex<N, V>,
    network: N,
) -> Option<(N, V)> {
    let Some(found) = index.lookup(network.ip()) else {
        return None;
    };
    if found.0.prefix() <= network.prefix() {
        return Some(found);
    }
    shorter_over(index.table(), network)
}

// Returns the same for a table, which is asked for the block of each prefix length in turn.
fn shorter_over<N: IndexedNetwork, V: Copy>(table: &PrefixTable<N, V>, network: N) -> Option<(N, V)> {
    let mut length = network.prefix();
    'shorter: loop {
        let Some(block) = N::block(network.ip(), length) else {
            unreachable!()
        };
        if let Some(value) = table.get(block) {
            return Some((block, value));
        }
        if length == 0 {
            return None;
        }
        length -= 1;
    }
}
