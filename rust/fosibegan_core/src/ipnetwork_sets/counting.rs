// Written by scripts/plain out of crates/ipnetwork_sets/src/counting.rt

//! The number of addresses in a set.

use crate::ipnetwork_sets::address_count::AddressCount;
use crate::ipnetwork_sets::address_set::AddressSet;
use crate::ipnetwork_sets::address_slice::AddressSlice;
use crate::ipnetwork_blocks::AddressSpace;

impl<N: AddressSpace> AddressSet<N> {
    /// The number of addresses in the set. Goes over the blocks once.
    ///
    /// ```
    /// # use fosibegan_core::in_examples::*;
    /// # use fosibegan_core::plain_std::vec;
    /// # ended(|| {
    /// let set = AddressSet::from_networks(vec![in Global; "192.0.2.0/25".parse::<Ipv4Network>()?]?);
    /// assert_eq!(set.address_count(), AddressCount::from(128));
    /// # Ok(())
    /// # });
    /// ```
    pub fn address_count(&self) -> AddressCount {
        self.as_slice().address_count()
    }
}

impl<'a, N: AddressSpace> AddressSlice<'a, N> {
    /// The number of addresses in the set. Goes over the blocks once.
    ///
    /// ```
    /// # use fosibegan_core::in_examples::*;
    /// # ended(|| {
    /// let list: [Ipv4Network; 1] = ["192.0.2.0/25".parse()?];
    /// assert_eq!(AddressSlice::from_blocks(&list).unwrap().address_count(), AddressCount::from(128));
    /// # Ok(())
    /// # });
    /// ```
    pub fn address_count(&self) -> AddressCount {
        count_blocks(self.blocks())
    }
}

// The sum of the sizes of the networks, or 2^128 if it is greater.
fn count_blocks<N: AddressSpace>(blocks: &[N]) -> AddressCount {
    let mut count = AddressCount::ZERO;
    for block in blocks {
        count = count.add_block(*block);
    }
    count
}
