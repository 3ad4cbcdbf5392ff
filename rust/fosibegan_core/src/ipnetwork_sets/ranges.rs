// Written by scripts/plain out of crates/ipnetwork_sets/src/ranges.rt

//! The ranges of addresses of a set.

use crate::ipnetwork_sets::address_set::AddressSet;
use crate::ipnetwork_sets::address_slice::AddressSlice;
use crate::ipnetwork_sets::blocks::{Blocks, SetBlocks};
use crate::ipnetwork_sets::common::Intersection;
use crate::ipnetwork_sets::difference::Difference;
use crate::ipnetwork_sets::order::touches;
use crate::ipnetwork_sets::union::Union;
use crate::ipnetwork_blocks::AddressSpace;

/// An iterator over the ranges of a set, in ascending order: the first and the last address of
/// each. The ranges are as long as possible, so there is at least one address between two of them
/// that is not in the set.
///
/// ```
/// # use fosibegan_core::in_examples::*;
/// # use fosibegan_core::plain_std::vec;
/// # ended(|| {
/// let networks = vec![in Global; "10.0.0.0/31".parse::<Ipv4Network>()?, "10.0.0.2/32".parse()?]?;
/// let set = AddressSet::from_networks(networks);
/// let ranges: Ranges<Ipv4Network, Blocks<'_, Ipv4Network>> = set.ranges();
/// assert!(ranges.eq([(Ipv4Addr::new(10, 0, 0, 0), Ipv4Addr::new(10, 0, 0, 2))]));
/// # Ok(())
/// # });
/// ```
#[derive(Clone, Debug)]
pub struct Ranges<N: AddressSpace, B: SetBlocks<N>> {
    ahead: Option<N>,
    blocks: B,
}

impl<N: AddressSpace, B: SetBlocks<N>> Ranges<N, B> {
    /// The ranges of the remaining blocks.
    ///
    /// ```
    /// # use fosibegan_core::in_examples::*;
    /// # ended(|| {
    /// let list: [Ipv4Network; 1] = ["192.0.2.0/24".parse()?];
    /// let mut ranges = Ranges::of(AddressSlice::from_blocks(&list).unwrap().iter());
    /// assert_eq!(ranges.next(), Some((Ipv4Addr::new(192, 0, 2, 0), Ipv4Addr::new(192, 0, 2, 255))));
    /// # Ok(())
    /// # });
    /// ```
    pub fn of(mut blocks: B) -> Self {
        let ahead = blocks.next_block();
        Ranges { ahead, blocks }
    }
}

impl<N: AddressSpace, B: SetBlocks<N>> Iterator for Ranges<N, B> {
    type Item = (N::Addr, N::Addr);

    fn next(&mut self) -> Option<(N::Addr, N::Addr)> {
        let first = self.ahead?;
        let (last, ahead) = last_of_run(first, &mut self.blocks);
        self.ahead = ahead;
        Some((first.network(), last.broadcast()))
    }
}

// The last block of the run that begins with `first`, and the block after the run, if there is one.
fn last_of_run<N: AddressSpace, B: SetBlocks<N>>(first: N, blocks: &mut B) -> (N, Option<N>) {
    let mut last = first;
    loop {
        let Some(block) = blocks.next_block() else {
            return (last, None);
        };
        if !touches(last, block) {
            return (last, Some(block));
        }
        last = block;
    }
}

impl<N: AddressSpace> AddressSet<N> {
    /// The first and the last address of each range of the set, in ascending order: the fewest
    /// ranges possible. Goes over the blocks once, as the iterator advances.
    ///
    /// ```
    /// # use fosibegan_core::in_examples::*;
    /// # use fosibegan_core::plain_std::vec;
    /// # ended(|| {
    /// let networks = vec![in Global; "192.0.2.0/25".parse::<Ipv4Network>()?, "192.0.2.128/25".parse()?]?;
    /// let set = AddressSet::from_networks(networks);
    /// let range = (Ipv4Addr::new(192, 0, 2, 0), Ipv4Addr::new(192, 0, 2, 255));
    /// assert_eq!(set.ranges().next(), Some(range));
    /// # Ok(())
    /// # });
    /// ```
    pub fn ranges(&self) -> Ranges<N, Blocks<'_, N>> {
        Ranges::of(self.iter())
    }
}

impl<'a, N: AddressSpace> AddressSlice<'a, N> {
    /// The first and the last address of each range of the set, in ascending order: the fewest
    /// ranges possible. Goes over the blocks once, as the iterator advances.
    ///
    /// ```
    /// # use fosibegan_core::in_examples::*;
    /// # ended(|| {
    /// let list: [Ipv4Network; 1] = ["192.0.2.0/24".parse()?];
    /// let range = (Ipv4Addr::new(192, 0, 2, 0), Ipv4Addr::new(192, 0, 2, 255));
    /// assert_eq!(AddressSlice::from_blocks(&list).unwrap().ranges().next(), Some(range));
    /// # Ok(())
    /// # });
    /// ```
    pub fn ranges(&self) -> Ranges<N, Blocks<'a, N>> {
        Ranges::of(self.iter())
    }
}

impl<'a, N: AddressSpace> Intersection<'a, N> {
    /// The ranges of the remaining blocks.
    ///
    /// ```
    /// # use fosibegan_core::in_examples::*;
    /// # use fosibegan_core::plain_std::vec;
    /// # ended(|| {
    /// let set = AddressSet::from_networks(vec![in Global; "192.0.2.0/25".parse::<Ipv4Network>()?]?);
    /// let other = AddressSet::from_networks(vec![in Global; "192.0.2.64/26".parse()?]?);
    /// let range = (Ipv4Addr::new(192, 0, 2, 64), Ipv4Addr::new(192, 0, 2, 127));
    /// assert_eq!(set.intersection(&other).ranges().next(), Some(range));
    /// # Ok(())
    /// # });
    /// ```
    pub fn ranges(self) -> Ranges<N, Intersection<'a, N>> {
        Ranges::of(self)
    }
}

impl<'a, N: AddressSpace> Difference<'a, N> {
    /// The ranges of the remaining blocks.
    ///
    /// ```
    /// # use fosibegan_core::in_examples::*;
    /// # use fosibegan_core::plain_std::vec;
    /// # ended(|| {
    /// let set = AddressSet::from_networks(vec![in Global; "192.0.2.0/25".parse::<Ipv4Network>()?]?);
    /// let other = AddressSet::from_networks(vec![in Global; "192.0.2.0/32".parse()?]?);
    /// let range = (Ipv4Addr::new(192, 0, 2, 1), Ipv4Addr::new(192, 0, 2, 127));
    /// assert_eq!(set.difference(&other).ranges().next(), Some(range));
    /// # Ok(())
    /// # });
    /// ```
    pub fn ranges(self) -> Ranges<N, Difference<'a, N>> {
        Ranges::of(self)
    }
}

impl<'a, N: AddressSpace> Union<'a, N> {
    /// The ranges of the remaining blocks.
    ///
    /// ```
    /// # use fosibegan_core::in_examples::*;
    /// # use fosibegan_core::plain_std::vec;
    /// # ended(|| {
    /// let set = AddressSet::from_networks(vec![in Global; "192.0.2.0/25".parse::<Ipv4Network>()?]?);
    /// let other = AddressSet::from_networks(vec![in Global; "192.0.2.128/32".parse()?]?);
    /// let range = (Ipv4Addr::new(192, 0, 2, 0), Ipv4Addr::new(192, 0, 2, 128));
    /// assert_eq!(set.union_blocks(&other).ranges().next(), Some(range));
    /// # Ok(())
    /// # });
    /// ```
    pub fn ranges(self) -> Ranges<N, Union<'a, N>> {
        Ranges::of(self)
    }
}
