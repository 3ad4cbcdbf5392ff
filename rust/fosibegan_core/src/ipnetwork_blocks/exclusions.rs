// Written by scripts/plain out of crates/ipnetwork_blocks/src/exclusions.rt

//! The addresses of a network that are not in another.

use crate::plain_std::KitClone;
use crate::ipnetwork_blocks::address_space::AddressSpace;
use crate::ipnetwork_blocks::range_blocks::RangeBlocks;
use crate::plain_std::alloc::AllocError;

/// An iterator over the least list of blocks for the addresses of a network that are not in
/// another, in ascending order.
///
/// ```
/// # use fosibegan_core::in_examples::*;
/// # ended(|| {
/// let network: Ipv4Network = "192.0.2.0/24".parse()?;
/// let blocks: Exclusion<Ipv4Network> = exclude(network, "192.0.2.128/26".parse()?);
/// assert!(blocks.eq(["192.0.2.0/25".parse()?, "192.0.2.192/26".parse()?]));
/// # Ok(())
/// # });
/// ```
pub struct Exclusion<N: AddressSpace> {
    below: RangeBlocks<N>,
    above: RangeBlocks<N>,
}

impl<N: AddressSpace> core::fmt::Debug for Exclusion<N>
where
    N: core::fmt::Debug,
    N::Addr: core::fmt::Debug,
{
    fn fmt(&self, f: &mut core::fmt::Formatter<'_>) -> core::fmt::Result {
        f.debug_struct("Exclusion")
            .field("below", &self.below)
            .field("above", &self.above)
            .finish()
    }
}

/// Returns the blocks of the addresses of `network` that are not in `inner`: as few as possible, in
/// ascending order. The host bits of both are ignored.
///
/// If `inner` contains all of `network`, there are no blocks. If they share no address, the only
/// block is that of `network`. Otherwise `inner` lies within `network`, and there is one block for
/// each bit by which its prefix length is longer.
///
/// ```
/// # use fosibegan_core::in_examples::*;
/// # ended(|| {
/// let network: Ipv4Network = "10.0.0.0/30".parse()?;
/// let mut blocks = exclude(network, "10.0.0.1/32".parse()?);
/// assert_eq!(blocks.next(), Some("10.0.0.0/32".parse()?));
/// assert_eq!(blocks.next(), Some("10.0.0.2/31".parse()?));
/// # Ok(())
/// # });
/// ```
pub fn exclude<N: AddressSpace>(network: N, inner: N) -> Exclusion<N> {
    // The contracts of these calls say that both are valid networks of `WIDTH` bits.
    let _ = network.ip();
    let _ = inner.ip();
    let first = network.network();
    let last = network.broadcast();
    if !network.overlaps(inner) {
        return Exclusion {
            below: RangeBlocks::none(first),
            above: RangeBlocks::between_or_none(first, last),
        };
    }
    Exclusion {
        below: blocks_before(first, inner),
        above: blocks_behind(inner, last),
    }
}

// Returns the blocks of the addresses from `first` to the last one before the network.
fn blocks_before<N: AddressSpace>(first: N::Addr, network: N) -> RangeBlocks<N> {
    match N::previous_address(network.network()) {
        Some(last) => RangeBlocks::between_or_none(first, last),
        None => RangeBlocks::none(first),
    }
}

// Returns the blocks of the addresses from the first one after the network to `last`.
fn blocks_behind<N: AddressSpace>(network: N, last: N::Addr) -> RangeBlocks<N> {
    match N::next_address(network.broadcast()) {
        Some(next) => RangeBlocks::between_or_none(next, last),
        None => RangeBlocks::none(last),
    }
}

impl<N: AddressSpace> Iterator for Exclusion<N> {
    type Item = N;

    fn next(&mut self) -> Option<N> {
        if let Some(block) = self.below.next() {
            return Some(block);
        }
        self.above.next()
    }
}

impl<N: AddressSpace> Clone for Exclusion<N> {
    fn clone(&self) -> Self {
        crate::plain_std::made(|| -> Result<Self, AllocError> {
        Ok(Exclusion {
            below: self.below.kit_clone()?,
            above: self.above.kit_clone()?,
        })
    })
    }
}
