// Written by scripts/plain out of crates/ipnetwork_sets/src/operations.rt

//! The operations on sets.

use crate::plain_std::vec::Vec;
use crate::ipnetwork_sets::address_set::AddressSet;
use crate::ipnetwork_sets::common::Intersection;
use crate::ipnetwork_sets::difference::Difference;
use crate::ipnetwork_sets::union::Union;
use crate::ipnetwork_blocks::AddressSpace;
use crate::plain_std::alloc::AllocError;

impl<N: AddressSpace> AddressSet<N> {
    /// The blocks of the addresses that are in both sets, in ascending order. Goes over both lists
    /// once, as the iterator advances.
    ///
    /// ```
    /// # use fosibegan_core::in_examples::*;
    /// # use fosibegan_core::plain_std::vec;
    /// # ended(|| {
    /// let set = AddressSet::from_networks(vec![in Global; "192.0.2.0/25".parse::<Ipv4Network>()?]?);
    /// let other = AddressSet::from_networks(vec![in Global; "192.0.2.0/26".parse()?]?);
    /// assert_eq!(set.intersection(&other).next(), Some("192.0.2.0/26".parse()?));
    /// # Ok(())
    /// # });
    /// ```
    pub fn intersection<'a>(&'a self, other: &'a AddressSet<N>) -> Intersection<'a, N> {
        Intersection::of_sets(self.blocks(), other.blocks())
    }

    /// The blocks of the addresses that are in this set and not in the other, in ascending order.
    /// Goes over both lists once, as the iterator advances.
    ///
    /// ```
    /// # use fosibegan_core::in_examples::*;
    /// # use fosibegan_core::plain_std::vec;
    /// # ended(|| {
    /// let set = AddressSet::from_networks(vec![in Global; "192.0.2.0/25".parse::<Ipv4Network>()?]?);
    /// let other = AddressSet::from_networks(vec![in Global; "192.0.2.0/26".parse()?]?);
    /// assert_eq!(set.difference(&other).next(), Some("192.0.2.64/26".parse()?));
    /// # Ok(())
    /// # });
    /// ```
    pub fn difference<'a>(&'a self, other: &'a AddressSet<N>) -> Difference<'a, N> {
        Difference::of_sets(self.blocks(), other.blocks())
    }

    /// The blocks of the addresses that are in the network and not in the set, in ascending order:
    /// the free part of the network. Host bits are ignored. Goes over the list once, as the
    /// iterator advances.
    ///
    /// For the network of prefix length 0, these are the blocks of all addresses that are not in
    /// the set.
    ///
    /// ```
    /// # use fosibegan_core::in_examples::*;
    /// # use fosibegan_core::plain_std::vec;
    /// # ended(|| {
    /// let set = AddressSet::from_networks(vec![in Global; "192.0.2.0/25".parse::<Ipv4Network>()?]?);
    /// assert_eq!(set.free_in("192.0.2.0/24".parse()?).next(), Some("192.0.2.128/25".parse()?));
    /// # Ok(())
    /// # });
    /// ```
    pub fn free_in(&self, network: N) -> Difference<'_, N> {
        Difference::within(network, self.blocks())
    }

    /// The blocks of the addresses that are in one of the two sets or in both, in ascending order.
    /// Goes over both lists once, as the iterator advances.
    ///
    /// ```
    /// # use fosibegan_core::in_examples::*;
    /// # use fosibegan_core::plain_std::vec;
    /// # ended(|| {
    /// let set = AddressSet::from_networks(vec![in Global; "192.0.2.0/25".parse::<Ipv4Network>()?]?);
    /// let other = AddressSet::from_networks(vec![in Global; "192.0.2.128/25".parse()?]?);
    /// assert_eq!(set.union_blocks(&other).next(), Some("192.0.2.0/24".parse()?));
    /// # Ok(())
    /// # });
    /// ```
    pub fn union_blocks<'a>(&'a self, other: &'a AddressSet<N>) -> Union<'a, N> {
        Union::of_sets(self.blocks(), other.blocks())
    }

    /// The set of the addresses that are in one of the two sets or in both. Goes over both lists
    /// once. The blocks are stored in `memory`, whose contents are dropped first. `AllocError`
    /// means that it had to grow and memory ran out.
    ///
    /// ```
    /// # use fosibegan_core::in_examples::*;
    /// # use fosibegan_core::plain_std::vec;
    /// # ended(|| {
    /// let set = AddressSet::from_networks(vec![in Global; "192.0.2.0/25".parse::<Ipv4Network>()?]?);
    /// let other = AddressSet::from_networks(vec![in Global; "192.0.2.128/25".parse()?]?);
    /// assert!(set.union(&other, Vec::new(Global))?.covers("192.0.2.0/24".parse()?));
    /// # Ok(())
    /// # });
    /// ```
    pub fn union(&self, other: &AddressSet<N>, memory: Vec<N>) -> Result<Self, AllocError> {
        self.union_blocks(other).into_set(memory)
    }

    /// Whether each address of this set is in the other. Goes over both lists at most once.
    ///
    /// ```
    /// # use fosibegan_core::in_examples::*;
    /// # use fosibegan_core::plain_std::vec;
    /// # ended(|| {
    /// let set = AddressSet::from_networks(vec![in Global; "192.0.2.0/25".parse::<Ipv4Network>()?]?);
    /// let other = AddressSet::from_networks(vec![in Global; "192.0.2.0/26".parse()?]?);
    /// assert!(other.is_subset_of(&set));
    /// assert!(!set.is_subset_of(&other));
    /// # Ok(())
    /// # });
    /// ```
    pub fn is_subset_of(&self, other: &AddressSet<N>) -> bool {
        self.as_slice().is_subset_of(&other.as_slice())
    }

    /// Whether no address is in both sets. Goes over both lists at most once.
    ///
    /// ```
    /// # use fosibegan_core::in_examples::*;
    /// # use fosibegan_core::plain_std::vec;
    /// # ended(|| {
    /// let set = AddressSet::from_networks(vec![in Global; "192.0.2.0/25".parse::<Ipv4Network>()?]?);
    /// let other = AddressSet::from_networks(vec![in Global; "192.0.2.128/25".parse()?]?);
    /// assert!(set.is_disjoint_from(&other));
    /// # Ok(())
    /// # });
    /// ```
    pub fn is_disjoint_from(&self, other: &AddressSet<N>) -> bool {
        self.as_slice().is_disjoint_from(&other.as_slice())
    }
}
