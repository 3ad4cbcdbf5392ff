// Written by scripts/plain out of crates/ipnetwork_blocks/src/spanning_block.rt

//! The smallest block that contains a list of networks.

use crate::ipnetwork_blocks::address_space::AddressSpace;
use crate::ipnetwork_blocks::supernets::block;

/// Returns the smallest block that contains all of the networks: it lies in every other network
/// that contains them all. Returns `None` if there are no networks.
///
/// ```
/// # use fosibegan_core::in_examples::*;
/// # ended(|| {
/// let networks: [Ipv4Network; 2] = ["10.0.1.0/24".parse()?, "10.0.2.128/25".parse()?];
/// assert_eq!(spanning(&networks), Some("10.0.0.0/22".parse()?));
/// # Ok(())
/// # });
/// ```
pub fn spanning<N: AddressSpace>(networks: &[N]) -> Option<N> {
    if networks.is_empty() {
        return None;
    }
    let mut around = block(networks[0]);
    for network in networks {
        around = around_both(around, *network);
    }
    Some(around)
}

// Returns the smallest block that contains both networks.
fn around_both<N: AddressSpace>(first: N, second: N) -> N {
    let begin = first.network();
    let shared = N::shared_bits(begin, second.network());
    let prefix = shared.min(first.prefix()).min(second.prefix());
    N::block_at(begin, prefix)
}
