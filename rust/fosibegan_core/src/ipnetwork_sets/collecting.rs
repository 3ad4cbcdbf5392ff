// Written by scripts/plain out of crates/ipnetwork_sets/src/collecting.rt

//! Sets made from iterators over blocks, in a list that the caller provides.

use crate::plain_std::vec::Vec;
use crate::ipnetwork_sets::address_set::AddressSet;
use crate::ipnetwork_sets::blocks::{Blocks, SetBlocks};
use crate::ipnetwork_sets::common::Intersection;
use crate::ipnetwork_sets::difference::Difference;
use crate::ipnetwork_sets::union::Union;
use crate::ipnetwork_blocks::AddressSpace;
use crate::plain_std::alloc::AllocError;

/// The set of the remaining blocks. The blocks are stored in `memory`, whose contents are dropped
/// first. `AllocError` means that it had to grow and memory ran out.
///
/// ```
/// # use fosibegan_core::in_examples::*;
/// # use fosibegan_core::plain_std::vec;
/// # ended(|| {
/// let set = AddressSet::from_networks(vec![in Global; "192.0.2.0/25".parse::<Ipv4Network>()?]?);
/// assert!(collected(set.iter(), Vec::new(Global))? == set);
/// # Ok(())
/// # });
/// ```
pub fn collected<N: AddressSpace, B: SetBlocks<N>>(
    mut blocks: B,
    mut memory: Vec<N>,
) -> Result<AddressSet<N>, AllocError> {
    memory.clear();
    loop {
        let Some(block) = blocks.next_block() else {
            return Ok(AddressSet::of_blocks(memory));
        };
        memory.push(block)?;
    }
}

impl<N: AddressSpace> AddressSet<N> {
    /// A set with the same addresses. The blocks are stored in `memory`, whose contents are dropped
    /// first. `AllocError` means that it had to grow and memory ran out.
    ///
    /// ```
    /// # use fosibegan_core::in_examples::*;
    /// # use fosibegan_core::plain_std::vec;
    /// # ended(|| {
    /// let set = AddressSet::from_networks(vec![in Global; "192.0.2.0/25".parse::<Ipv4Network>()?]?);
    /// assert!(set.copied(Vec::new(Global))? == set);
    /// # Ok(())
    /// # });
    /// ```
    pub fn copied(&self, memory: Vec<N>) -> Result<Self, AllocError> {
        self.iter().into_set(memory)
    }
}

impl<'a, N: AddressSpace> Blocks<'a, N> {
    /// The set of the remaining blocks. The blocks are stored in `memory`, whose contents are
    /// dropped first. `AllocError` means that it had to grow and memory ran out.
    ///
    /// ```
    /// # use fosibegan_core::in_examples::*;
    /// # use fosibegan_core::plain_std::vec;
    /// # ended(|| {
    /// let networks = vec![in Global; "192.0.2.0/25".parse::<Ipv4Network>()?, "198.51.100.0/24".parse()?]?;
    /// let set = AddressSet::from_networks(networks);
    /// let mut blocks = set.iter();
    /// assert_eq!(blocks.next(), Some("192.0.2.0/25".parse()?));
    /// let rest = blocks.into_set(Vec::new(Global))?;
    /// assert_eq!(rest.blocks(), ["198.51.100.0/24".parse()?].as_slice());
    /// # Ok(())
    /// # });
    /// ```
    pub fn into_set(self, memory: Vec<N>) -> Result<AddressSet<N>, AllocError> {
        collected(self, memory)
    }
}

impl<'a, N: AddressSpace> Intersection<'a, N> {
    /// The set of the remaining blocks. The blocks are stored in `memory`, whose contents are
    /// dropped first. `AllocError` means that it had to grow and memory ran out.
    ///
    /// ```
    /// # use fosibegan_core::in_examples::*;
    /// # use fosibegan_core::plain_std::vec;
    /// # ended(|| {
    /// let set = AddressSet::from_networks(vec![in Global; "192.0.2.0/25".parse::<Ipv4Network>()?]?);
    /// let other = AddressSet::from_networks(vec![in Global; "192.0.2.64/26".parse()?]?);
    /// let common = set.intersection(&other).into_set(Vec::new(Global))?;
    /// assert_eq!(common.blocks(), ["192.0.2.64/26".parse()?].as_slice());
    /// # Ok(())
    /// # });
    /// ```
    pub fn into_set(self, memory: Vec<N>) -> Result<AddressSet<N>, AllocError> {
        collected(self, memory)
    }
}

impl<'a, N: AddressSpace> Difference<'a, N> {
    /// The set of the remaining blocks. The blocks are stored in `memory`, whose contents are
    /// dropped first. `AllocError` means that it had to grow and memory ran out.
    ///
    /// ```
    /// # use fosibegan_core::in_examples::*;
    /// # use fosibegan_core::plain_std::vec;
    /// # ended(|| {
    /// let set = AddressSet::from_networks(vec![in Global; "192.0.2.0/25".parse::<Ipv4Network>()?]?);
    /// let other = AddressSet::from_networks(vec![in Global; "192.0.2.64/26".parse()?]?);
    /// let left = set.difference(&other).into_set(Vec::new(Global))?;
    /// assert_eq!(left.blocks(), ["192.0.2.0/26".parse()?].as_slice());
    /// # Ok(())
    /// # });
    /// ```
    pub fn into_set(self, memory: Vec<N>) -> Result<AddressSet<N>, AllocError> {
        collected(self, memory)
    }
}

impl<'a, N: AddressSpace> Union<'a, N> {
    /// The set of the remaining blocks. The blocks are stored in `memory`, whose contents are
    /// dropped first. `AllocError` means that it had to grow and memory ran out.
    ///
    /// ```
    /// # use fosibegan_core::in_examples::*;
    /// # use fosibegan_core::plain_std::vec;
    /// # ended(|| {
    /// let set = AddressSet::from_networks(vec![in Global; "192.0.2.0/25".parse::<Ipv4Network>()?]?);
    /// let other = AddressSet::from_networks(vec![in Global; "192.0.2.128/25".parse()?]?);
    /// let both = set.union_blocks(&other).into_set(Vec::new(Global))?;
    /// assert_eq!(both.blocks(), ["192.0.2.0/24".parse()?].as_slice());
    /// # Ok(())
    /// # });
    /// ```
    pub fn into_set(self, memory: Vec<N>) -> Result<AddressSet<N>, AllocError> {
        collected(self, memory)
    }
}
