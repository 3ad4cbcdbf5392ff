// Written by scripts/plain out of crates/ipnetwork_sets/src/ip_sets/collecting.rt

//! Sets made from iterators over blocks, in lists that the caller provides.

use crate::plain_std::vec::Vec;
use crate::ipnetwork_sets::ip_sets::blocks::IpBlocks;
use crate::ipnetwork_sets::ip_sets::ip_address_set::IpAddressSet;
use crate::ipnetwork_sets::{SetBlocks, collected};
use crate::ipnetwork::{Ipv4Network, Ipv6Network};
use crate::plain_std::alloc::AllocError;

impl IpAddressSet {
    /// A set with the same addresses. The blocks of the families are stored in `v4_memory` and
    /// `v6_memory`, whose contents are dropped first. `AllocError` means that one of them had to
    /// grow and memory ran out.
    ///
    /// ```
    /// # use fosibegan_core::in_examples::*;
    /// # use fosibegan_core::plain_std::vec;
    /// # ended(|| {
    /// let v4 = vec![in Global; "192.0.2.0/25".parse::<Ipv4Network>()?]?;
    /// let set = IpAddressSet::from_lists(v4, Vec::new(Global));
    /// assert!(set.copied(Vec::new(Global), Vec::new(Global))? == set);
    /// # Ok(())
    /// # });
    /// ```
    pub fn copied(
        &self,
        v4_memory: Vec<Ipv4Network>,
        v6_memory: Vec<Ipv6Network>,
    ) -> Result<Self, AllocError> {
        self.iter().into_set(v4_memory, v6_memory)
    }
}

impl<V4: SetBlocks<Ipv4Network>, V6: SetBlocks<Ipv6Network>> IpBlocks<V4, V6> {
    /// The set of the remaining blocks. The blocks of the families are stored in `v4_memory` and
    /// `v6_memory`, whose contents are dropped first. `AllocError` means that one of them had to
    /// grow and memory ran out.
    ///
    /// ```
    /// # use fosibegan_core::in_examples::*;
    /// # use fosibegan_core::plain_std::vec;
    /// # ended(|| {
    /// let v4 = vec![in Global; "192.0.2.0/25".parse::<Ipv4Network>()?]?;
    /// let set = IpAddressSet::from_lists(v4, Vec::new(Global));
    /// let blocks = set.iter();
    /// assert!(blocks.into_set(Vec::new(Global), Vec::new(Global))? == set);
    /// let common = set.intersection(&set).into_set(Vec::new(Global), Vec::new(Global))?;
    /// assert!(common == set);
    /// let rest = set.difference(&set).into_set(Vec::new(Global), Vec::new(Global))?;
    /// assert!(rest.is_empty());
    /// let both = set.union_blocks(&set).into_set(Vec::new(Global), Vec::new(Global))?;
    /// assert!(both == set);
    /// # Ok(())
    /// # });
    /// ```
    pub fn into_set(
        self,
        v4_memory: Vec<Ipv4Network>,
        v6_memory: Vec<Ipv6Network>,
    ) -> Result<IpAddressSet, AllocError> {
        let v4 = collected(self.v4, v4_memory)?;
        let v6 = collected(self.v6, v6_memory)?;
        Ok(IpAddressSet::from_parts(v4, v6))
    }
}
