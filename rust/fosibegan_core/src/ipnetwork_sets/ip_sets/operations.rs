// Written by scripts/plain out of crates/ipnetwork_sets/src/ip_sets/operations.rt

//! The operations on sets.

use crate::plain_std::vec::Vec;
use crate::ipnetwork_sets::ip_sets::blocks::IpBlocks;
use crate::ipnetwork_sets::ip_sets::ip_address_set::IpAddressSet;
use crate::ipnetwork_sets::{Difference, Intersection, Union};
use crate::ipnetwork::{Ipv4Network, Ipv6Network};
use crate::plain_std::alloc::AllocError;

// The iterators that the operations return.
type Common<'a> = IpBlocks<Intersection<'a, Ipv4Network>, Intersection<'a, Ipv6Network>>;

type Remainder<'a> = IpBlocks<Difference<'a, Ipv4Network>, Difference<'a, Ipv6Network>>;

type Either<'a> = IpBlocks<Union<'a, Ipv4Network>, Union<'a, Ipv6Network>>;

impl IpAddressSet {
    /// The blocks of the addresses that are in both sets. Goes over the lists of both once, as the
    /// iterator advances.
    ///
    /// ```
    /// # use fosibegan_core::in_examples::*;
    /// # use fosibegan_core::plain_std::vec;
    /// # ended(|| {
    /// let v4 = vec![in Global; "192.0.2.0/25".parse::<Ipv4Network>()?]?;
    /// let set = IpAddressSet::from_lists(v4, Vec::new(Global));
    /// let v4 = vec![in Global; "192.0.2.0/26".parse::<Ipv4Network>()?]?;
    /// let other = IpAddressSet::from_lists(v4, Vec::new(Global));
    /// assert_eq!(set.intersection(&other).next(), Some("192.0.2.0/26".parse()?));
    /// # Ok(())
    /// # });
    /// ```
    pub fn intersection<'a>(&'a self, other: &'a IpAddressSet) -> Common<'a> {
        IpBlocks::of(
            self.v4().intersection(other.v4()),
            self.v6().intersection(other.v6()),
        )
    }

    /// The blocks of the addresses that are in this set and not in the other. Goes over the lists
    /// of both once, as the iterator advances.
    ///
    /// ```
    /// # use fosibegan_core::in_examples::*;
    /// # use fosibegan_core::plain_std::vec;
    /// # ended(|| {
    /// let v4 = vec![in Global; "192.0.2.0/25".parse::<Ipv4Network>()?]?;
    /// let set = IpAddressSet::from_lists(v4, Vec::new(Global));
    /// let v4 = vec![in Global; "192.0.2.0/26".parse::<Ipv4Network>()?]?;
    /// let other = IpAddressSet::from_lists(v4, Vec::new(Global));
    /// assert_eq!(set.difference(&other).next(), Some("192.0.2.64/26".parse()?));
    /// # Ok(())
    /// # });
    /// ```
    pub fn difference<'a>(&'a self, other: &'a IpAddressSet) -> Remainder<'a> {
        IpBlocks::of(
            self.v4().difference(other.v4()),
            self.v6().difference(other.v6()),
        )
    }

    /// The blocks of all addresses of either family that are not in the set. Goes over both its
    /// lists once, as the iterator advances.
    ///
    /// ```
    /// # use fosibegan_core::in_examples::*;
    /// # use fosibegan_core::plain_std::vec;
    /// # ended(|| {
    /// let v4 = vec![in Global; "0.0.0.0/1".parse::<Ipv4Network>()?]?;
    /// let set = IpAddressSet::from_lists(v4, Vec::new(Global));
    /// assert!(set.complement().eq(["128.0.0.0/1".parse()?, "::/0".parse()?]));
    /// # Ok(())
    /// # });
    /// ```
    pub fn complement(&self) -> Remainder<'_> {
        IpBlocks::of(self.v4().complement(), self.v6().complement())
    }

    /// The blocks of the addresses that are in one of the two sets or in both. Goes over the lists
    /// of both once, as the iterator advances.
    ///
    /// ```
    /// # use fosibegan_core::in_examples::*;
    /// # use fosibegan_core::plain_std::vec;
    /// # ended(|| {
    /// let v4 = vec![in Global; "192.0.2.0/25".parse::<Ipv4Network>()?]?;
    /// let set = IpAddressSet::from_lists(v4, Vec::new(Global));
    /// let v4 = vec![in Global; "192.0.2.128/25".parse::<Ipv4Network>()?]?;
    /// let other = IpAddressSet::from_lists(v4, Vec::new(Global));
    /// assert_eq!(set.union_blocks(&other).next(), Some("192.0.2.0/24".parse()?));
    /// # Ok(())
    /// # });
    /// ```
    pub fn union_blocks<'a>(&'a self, other: &'a IpAddressSet) -> Either<'a> {
        IpBlocks::of(
            self.v4().union_blocks(other.v4()),
            self.v6().union_blocks(other.v6()),
        )
    }

    /// The set of the addresses that are in one of the two sets or in both. Goes over the lists of
    /// both once. The blocks of the families are stored in `v4_memory` and `v6_memory`, whose
    /// contents are dropped first. `AllocError` means that one of them had to grow and memory ran
    /// out.
    ///
    /// ```
    /// # use fosibegan_core::in_examples::*;
    /// # use fosibegan_core::plain_std::vec;
    /// # ended(|| {
    /// let v4 = vec![in Global; "192.0.2.0/25".parse::<Ipv4Network>()?]?;
    /// let set = IpAddressSet::from_lists(v4, Vec::new(Global));
    /// let v6 = vec![in Global; "::1/128".parse::<Ipv6Network>()?]?;
    /// let other = IpAddressSet::from_lists(Vec::new(Global), v6);
    /// let union = set.union(&other, Vec::new(Global), Vec::new(Global))?;
    /// assert!(union.iter().eq(["192.0.2.0/25".parse()?, "::1/128".parse()?]));
    /// # Ok(())
    /// # });
    /// ```
    pub fn union(
        &self,
        other: &IpAddressSet,
        v4_memory: Vec<Ipv4Network>,
        v6_memory: Vec<Ipv6Network>,
    ) -> Result<Self, AllocError> {
        self.union_blocks(other).into_set(v4_memory, v6_memory)
    }

    /// Whether each address of this set is in the other. Goes over the lists of both at most once.
    ///
    /// ```
    /// # use fosibegan_core::in_examples::*;
    /// # use fosibegan_core::plain_std::vec;
    /// # ended(|| {
    /// let v4 = vec![in Global; "192.0.2.0/25".parse::<Ipv4Network>()?]?;
    /// let set = IpAddressSet::from_lists(v4, Vec::new(Global));
    /// let v4 = vec![in Global; "192.0.2.0/26".parse::<Ipv4Network>()?]?;
    /// let other = IpAddressSet::from_lists(v4, Vec::new(Global));
    /// assert!(other.is_subset_of(&set));
    /// assert!(!set.is_subset_of(&other));
    /// # Ok(())
    /// # });
    /// ```
    pub fn is_subset_of(&self, other: &IpAddressSet) -> bool {
        self.v4().is_subset_of(other.v4()) && self.v6().is_subset_of(other.v6())
    }

    /// Whether no address is in both sets. Goes over the lists of both at most once.
    ///
    /// ```
    /// # use fosibegan_core::in_examples::*;
    /// # use fosibegan_core::plain_std::vec;
    /// # ended(|| {
    /// let v4 = vec![in Global; "0.0.0.0/0".parse::<Ipv4Network>()?]?;
    /// let set = IpAddressSet::from_lists(v4, Vec::new(Global));
    /// let v6 = vec![in Global; "::/0".parse::<Ipv6Network>()?]?;
    /// let other = IpAddressSet::from_lists(Vec::new(Global), v6);
    /// assert!(set.is_disjoint_from(&other));
    /// # Ok(())
    /// # });
    /// ```
    pub fn is_disjoint_from(&self, other: &IpAddressSet) -> bool {
        self.v4().is_disjoint_from(other.v4()) && self.v6().is_disjoint_from(other.v6())
    }
}
