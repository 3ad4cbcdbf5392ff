// Written by scripts/plain out of crates/ipnetwork_sets/src/ip_sets/blocks.rt

//! The blocks of a set, one after the other.

use crate::ipnetwork_sets::SetBlocks;
use crate::ipnetwork::{IpNetwork, Ipv4Network, Ipv6Network};

/// An iterator over the blocks of a set: the IPv4 blocks, followed by the IPv6 blocks, each in
/// ascending order. `V4` and `V6` iterate over the blocks of each family: they are the iterators of
/// `ipnetwork_sets` over a set, an intersection, a difference or a union.
///
/// ```
/// # use fosibegan_core::in_examples::*;
/// # use fosibegan_core::plain_std::vec;
/// # ended(|| {
/// let v4 = vec![in Global; "192.0.2.0/24".parse::<Ipv4Network>()?]?;
/// let set = IpAddressSet::from_lists(v4, Vec::new(Global));
/// let blocks: IpBlocks<fosibegan_core::ipnetwork_sets::Blocks<'_, Ipv4Network>, fosibegan_core::ipnetwork_sets::Blocks<'_, Ipv6Network>> = set.iter();
/// assert!(blocks.eq(["192.0.2.0/24".parse()?]));
/// # Ok(())
/// # });
/// ```
#[derive(Debug)]
pub struct IpBlocks<V4: SetBlocks<Ipv4Network>, V6: SetBlocks<Ipv6Network>> {
    pub(crate) v4: V4,
    pub(crate) v6: V6,
}

impl<V4: SetBlocks<Ipv4Network>, V6: SetBlocks<Ipv6Network>> IpBlocks<V4, V6> {
    // The blocks of both iterators.
    pub(crate) fn of(v4: V4, v6: V6) -> Self {
        IpBlocks { v4, v6 }
    }
}

impl<V4: SetBlocks<Ipv4Network>, V6: SetBlocks<Ipv6Network>> Iterator for IpBlocks<V4, V6> {
    type Item = IpNetwork;

    fn next(&mut self) -> Option<IpNetwork> {
        match self.v4.next_block() {
            Some(block) => Some(IpNetwork::V4(block)),
            None => Some(IpNetwork::V6(self.v6.next_block()?)),
        }
    }
}
