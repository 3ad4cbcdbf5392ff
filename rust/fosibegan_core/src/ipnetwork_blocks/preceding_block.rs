// Written by scripts/plain out of crates/ipnetwork_blocks/src/preceding_block.rt

//! The block before a block.

use crate::ipnetwork_blocks::address_space::AddressSpace;

/// Returns the block of the same prefix length that ends just before the lowest address of the
/// network, or `None` if that address is the first of the family.
///
/// ```
/// # use fosibegan_core::in_examples::*;
/// # ended(|| {
/// let network: Ipv4Network = "192.0.3.0/25".parse()?;
/// assert_eq!(preceding(network), Some("192.0.2.128/25".parse()?));
/// # Ok(())
/// # });
/// ```
pub fn preceding<N: AddressSpace>(network: N) -> Option<N> {
    match N::previous_address(network.network()) {
        Some(previous) => Some(N::block_at(previous, network.prefix())),
        None => None,
    }
}
