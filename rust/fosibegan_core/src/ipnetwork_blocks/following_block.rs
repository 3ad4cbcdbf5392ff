// Written by scripts/plain out of crates/ipnetwork_blocks/src/following_block.rt

//! The block after a block.

use crate::ipnetwork_blocks::address_space::AddressSpace;

/// Returns the block of the same prefix length that begins just after the highest address of the
/// network, or `None` if that address is the last of the family.
///
/// ```
/// # use fosibegan_core::in_examples::*;
/// # ended(|| {
/// let network: Ipv4Network = "192.0.2.128/25".parse()?;
/// assert_eq!(following(network), Some("192.0.3.0/25".parse()?));
/// # Ok(())
/// # });
/// ```
pub fn following<N: AddressSpace>(network: N) -> Option<N> {
    match N::next_address(network.broadcast()) {
        Some(next) => Some(N::block_at(next, network.prefix())),
        None => None,
    }
}
