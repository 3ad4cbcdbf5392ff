// Written by scripts/plain out of crates/ipnetwork_blocks/src/subnet_iterator.rt

//! The blocks of one prefix length within a network.

use crate::ipnetwork_blocks::address_space::AddressSpace;
use crate::ipnetwork_blocks::following_block::following;
use crate::plain_std::alloc::AllocError;

/// An iterator over the blocks of one prefix length within a network, in ascending order.
///
/// ```
/// # use fosibegan_core::in_examples::*;
/// # ended(|| {
/// let mut blocks: SubnetIterator<Ipv4Network> = subnets("10.0.0.0/23".parse()?, 24).unwrap();
/// assert_eq!(blocks.next(), Some("10.0.0.0/24".parse()?));
/// assert_eq!(blocks.next(), Some("10.0.1.0/24".parse()?));
/// assert_eq!(blocks.next(), None);
/// # Ok(())
/// # });
/// ```
#[derive(Debug)]
pub struct SubnetIterator<N: AddressSpace> {
    next: Option<N>,
    last: N,
}

/// Returns the blocks of this prefix length within the network, each once, in ascending order:
/// 2^(`prefix` - n) of them, where n is the network's own prefix length. If `prefix` is n, the only
/// block is the network's own. Returns `None` if `prefix` is shorter than n or greater than
/// `WIDTH`.
///
/// ```
/// # use fosibegan_core::in_examples::*;
/// # ended(|| {
/// let network: Ipv4Network = "10.0.0.0/8".parse()?;
/// assert_eq!(subnets(network, 16).unwrap().count(), 256);
/// assert!(subnets(network, 7).is_none());
/// # Ok(())
/// # });
/// ```
pub fn subnets<N: AddressSpace>(network: N, prefix: u8) -> Option<SubnetIterator<N>> {
    if prefix < network.prefix() {
        return None;
    }
    let first = N::block(network.network(), prefix)?;
    let last = N::block(network.broadcast(), prefix)?;
    Some(SubnetIterator {
        next: Some(first),
        last,
    })
}

impl<N: AddressSpace> Iterator for SubnetIterator<N> {
    type Item = N;

    fn next(&mut self) -> Option<N> {
        let item = self.next?;
        self.next = if item == self.last {
            None
        } else {
            following(item)
        };
        Some(item)
    }
}

impl<N: AddressSpace> Clone for SubnetIterator<N> {
    fn clone(&self) -> Self {
        crate::plain_std::made(|| -> Result<Self, AllocError> {
        Ok(SubnetIterator { ..*self })
    })
    }
}
