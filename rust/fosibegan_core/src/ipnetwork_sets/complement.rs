// Written by scripts/plain out of crates/ipnetwork_sets/src/complement.rt

//! The addresses that are not in a set.

use crate::ipnetwork_sets::address_set::AddressSet;
use crate::ipnetwork_sets::address_slice::AddressSlice;
use crate::ipnetwork_sets::difference::Difference;
use crate::ipnetwork_blocks::AddressSpace;

impl<N: AddressSpace> AddressSet<N> {
    /// The blocks of all addresses of the family that are not in the set, in ascending order. Goes
    /// over the list once, as the iterator advances.
    ///
    /// ```
    /// # use fosibegan_core::in_examples::*;
    /// # use fosibegan_core::plain_std::vec;
    /// # ended(|| {
    /// let set = AddressSet::from_networks(vec![in Global; "0.0.0.0/1".parse::<Ipv4Network>()?]?);
    /// assert_eq!(set.complement().next(), Some("128.0.0.0/1".parse()?));
    /// # Ok(())
    /// # });
    /// ```
    pub fn complement(&self) -> Difference<'_, N> {
        self.as_slice().complement()
    }
}

impl<'a, N: AddressSpace> AddressSlice<'a, N> {
    /// The blocks of all addresses of the family that are not in the set, in ascending order. Goes
    /// over the list once, as the iterator advances.
    ///
    /// ```
    /// # use fosibegan_core::in_examples::*;
    /// # ended(|| {
    /// let list: [Ipv4Network; 1] = ["0.0.0.0/1".parse()?];
    /// assert!(AddressSlice::from_blocks(&list).unwrap().complement().eq(["128.0.0.0/1".parse()?]));
    /// # Ok(())
    /// # });
    /// ```
    pub fn complement(&self) -> Difference<'a, N> {
        self.free_in(N::whole())
    }
}
