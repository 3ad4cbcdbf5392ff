// Written by scripts/plain out of crates/ipnetwork_blocks/src/range_blocks.rt

//! The blocks of a range of addresses.

use crate::ipnetwork_blocks::address_space::AddressSpace;
use crate::plain_std::alloc::AllocError;

/// An iterator over the least list of blocks for a range of addresses, in ascending order.
///
/// ```
/// # use fosibegan_core::in_examples::*;
/// # ended(|| {
/// let (first, last) = (Ipv4Addr::new(192, 0, 2, 1), Ipv4Addr::new(192, 0, 2, 4));
/// let mut blocks: RangeBlocks<Ipv4Network> = range_to_blocks(first, last).unwrap();
/// assert_eq!(blocks.next(), Some("192.0.2.1/32".parse()?));
/// assert_eq!(blocks.next(), Some("192.0.2.2/31".parse()?));
/// # Ok(())
/// # });
/// ```
#[derive(Debug)]
pub struct RangeBlocks<N: AddressSpace> {
    next: N::Addr,
    last: N::Addr,
    is_done: bool,
}

/// Returns the blocks whose addresses are those from `first` to `last`, both included: as few as
/// possible, in ascending order. Returns `None` if `first` comes after `last`.
///
/// There are at most 62 blocks for IPv4 and 254 for IPv6: 2 W - 2 for addresses of W bits, if W is
/// at least 2. The whole address space is one block, of prefix length 0.
///
/// ```
/// # use fosibegan_core::in_examples::*;
/// # ended(|| {
/// let (first, last) = ("2001:db8::".parse()?, "2001:db8::1:ffff".parse()?);
/// let blocks = range_to_blocks::<Ipv6Network>(first, last).unwrap();
/// assert!(blocks.eq(["2001:db8::/111".parse()?]));
/// assert!(range_to_blocks::<Ipv6Network>(last, first).is_none());
/// # Ok(())
/// # });
/// ```
pub fn range_to_blocks<N: AddressSpace>(first: N::Addr, last: N::Addr) -> Option<RangeBlocks<N>> {
    if last < first {
        return None;
    }
    Some(RangeBlocks::between(first, last))
}

impl<N: AddressSpace> RangeBlocks<N> {
    /// Returns the blocks of the addresses from `first` to `last`, both included.
    pub(crate) fn between(first: N::Addr, last: N::Addr) -> Self {
        // The clause `address` of this call says that `last` is an address of the family.
        let _ = N::block_at(last, N::WIDTH);
        RangeBlocks {
            next: first,
            last,
            is_done: false,
        }
    }

    /// Returns no blocks. Any address can be passed.
    pub(crate) fn none(address: N::Addr) -> Self {
        let _ = N::block_at(address, N::WIDTH);
        RangeBlocks {
            next: address,
            last: address,
            is_done: true,
        }
    }

    /// Returns the blocks of the addresses from `first` to `last`, or none if `first` comes after
    /// `last`.
    pub(crate) fn between_or_none(first: N::Addr, last: N::Addr) -> Self {
        match range_to_blocks(first, last) {
            Some(blocks) => blocks,
            None => RangeBlocks::none(last),
        }
    }
}

impl<N: AddressSpace> Iterator for RangeBlocks<N> {
    type Item = N;

    fn next(&mut self) -> Option<N> {
        if self.is_done {
            return None;
        }
        let block = widest_block::<N>(self.next, self.last);
        if ends_before(block, self.last) {
            let Some(next) = N::next_address(block.broadcast()) else {
                unreachable!()
            };
            self.next = next;
        } else {
            self.is_done = true;
        }
        Some(block)
    }
}

// Returns whether the network ends before the address.
fn ends_before<N: AddressSpace>(network: N, address: N::Addr) -> bool {
    network.broadcast() < address
}

// Returns whether the network ends after the address.
fn ends_behind<N: AddressSpace>(network: N, address: N::Addr) -> bool {
    address < network.broadcast()
}

/// Returns the widest block that begins at `first` and does not end after `last`: the first of the
/// blocks that [`range_to_blocks`] returns. `first` must not come after `last`.
///
/// If `first` has fewer trailing zeros than there are bits after those that it shares with `last`,
/// it is the block with these zeros as host bits. Otherwise it is the smallest block that contains
/// both if that ends at `last`, or else the lower half of that block.
pub(crate) fn widest_block<N: AddressSpace>(first: N::Addr, last: N::Addr) -> N {
    let aligned = N::WIDTH - N::trailing_zeros(first);
    let shared = N::shared_bits(first, last);
    if shared < aligned {
        return N::block_at(first, aligned);
    }
    let block = N::block_at(first, shared);
    if ends_behind(block, last) {
        return N::block_at(first, shared + 1);
    }
    block
}

impl<N: AddressSpace> Clone for RangeBlocks<N> {
    fn clone(&self) -> Self {
        crate::plain_std::made(|| -> Result<Self, AllocError> {
        Ok(RangeBlocks {
            next: self.next,
            last: self.last,
            is_done: self.is_done,
        })
    })
    }
}
