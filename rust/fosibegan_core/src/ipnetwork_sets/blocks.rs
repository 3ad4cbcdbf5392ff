// Written by scripts/plain out of crates/ipnetwork_sets/src/blocks.rt

//! The blocks of a set, one after the other.

use crate::ipnetwork_sets::address_set::AddressSet;
use crate::ipnetwork_sets::address_slice::AddressSlice;
use crate::ipnetwork_sets::common::Intersection;
use crate::ipnetwork_sets::difference::Difference;
use crate::ipnetwork_sets::union::Union;
use crate::ipnetwork_blocks::AddressSpace;

/// An iterator over the blocks of a set, in ascending order.
///
/// ```
/// # use fosibegan_core::in_examples::*;
/// # use fosibegan_core::plain_std::vec;
/// # ended(|| {
/// let set = AddressSet::from_networks(vec![in Global; "192.0.2.0/25".parse::<Ipv4Network>()?]?);
/// let other = AddressSet::from_networks(vec![in Global; "192.0.2.0/26".parse()?]?);
/// let mut blocks = set.difference(&other);
/// assert_eq!(SetBlocks::next_block(&mut blocks), Some("192.0.2.64/26".parse()?));
/// # Ok(())
/// # });
/// ```
pub trait SetBlocks<N: AddressSpace> {
    /// The next block; `None` after the last.
    ///
    /// ```
    /// # use fosibegan_core::in_examples::*;
    /// # use fosibegan_core::plain_std::vec;
    /// # ended(|| {
    /// let set = AddressSet::from_networks(vec![in Global; "192.0.2.0/25".parse::<Ipv4Network>()?]?);
    /// let mut blocks = set.iter();
    /// assert_eq!(blocks.next_block(), Some("192.0.2.0/25".parse()?));
    /// assert_eq!(blocks.next_block(), None);
    /// # Ok(())
    /// # });
    /// ```
    fn next_block(&mut self) -> Option<N>;
}

/// The iterator over the blocks of an `AddressSet` or an `AddressSlice`, in ascending order.
///
/// ```
/// # use fosibegan_core::in_examples::*;
/// # use fosibegan_core::plain_std::vec;
/// # ended(|| {
/// let set = AddressSet::from_networks(vec![in Global; "192.0.2.0/25".parse::<Ipv4Network>()?]?);
/// let blocks: Blocks<'_, Ipv4Network> = set.iter();
/// assert!(blocks.eq(["192.0.2.0/25".parse()?]));
/// # Ok(())
/// # });
/// ```
#[derive(Clone, Debug)]
pub struct Blocks<'a, N: AddressSpace> {
    rest: AddressSlice<'a, N>,
}

impl<N: AddressSpace> AddressSet<N> {
    /// An iterator over the blocks, in ascending order.
    ///
    /// ```
    /// # use fosibegan_core::in_examples::*;
    /// # use fosibegan_core::plain_std::vec;
    /// # ended(|| {
    /// let set = AddressSet::from_networks(vec![in Global; "192.0.2.0/25".parse::<Ipv4Network>()?]?);
    /// let mut blocks = set.iter();
    /// assert_eq!(blocks.next(), Some("192.0.2.0/25".parse()?));
    /// # Ok(())
    /// # });
    /// ```
    pub fn iter(&self) -> Blocks<'_, N> {
        self.as_slice().iter()
    }
}

impl<'a, N: AddressSpace> AddressSlice<'a, N> {
    /// An iterator over the blocks, in ascending order.
    ///
    /// ```
    /// # use fosibegan_core::in_examples::*;
    /// # ended(|| {
    /// let list: [Ipv4Network; 1] = ["192.0.2.0/25".parse()?];
    /// assert!(AddressSlice::from_blocks(&list).unwrap().iter().eq(list));
    /// # Ok(())
    /// # });
    /// ```
    pub fn iter(&self) -> Blocks<'a, N> {
        Blocks {
            rest: AddressSlice::of_blocks(self.blocks()),
        }
    }
}

impl<'a, N: AddressSpace> Iterator for Blocks<'a, N> {
    type Item = N;

    fn next(&mut self) -> Option<N> {
        let left = self.rest.blocks();
        let Some((block, rest)) = left.split_first() else {
            return None;
        };
        self.rest = AddressSlice::of_blocks(rest);
        Some(*block)
    }
}

impl<'a, N: AddressSpace> SetBlocks<N> for Blocks<'a, N> {
    fn next_block(&mut self) -> Option<N> {
        let _ = self.rest.blocks();
        self.next()
    }
}

impl<'a, N: AddressSpace> SetBlocks<N> for Intersection<'a, N> {
    fn next_block(&mut self) -> Option<N> {
        self.law_are_sets();
        self.next()
    }
}

impl<'a, N: AddressSpace> SetBlocks<N> for Difference<'a, N> {
    fn next_block(&mut self) -> Option<N> {
        self.law_are_sets();
        self.next()
    }
}

impl<'a, N: AddressSpace> SetBlocks<N> for Union<'a, N> {
    fn next_block(&mut self) -> Option<N> {
        self.law_are_sets();
        self.next()
    }
}
