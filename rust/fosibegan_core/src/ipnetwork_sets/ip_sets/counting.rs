// Written by scripts/plain out of crates/ipnetwork_sets/src/ip_sets/counting.rt

//! The numbers of addresses and blocks in a set.

use crate::ipnetwork_sets::AddressCount;
use crate::ipnetwork_sets::ip_sets::ip_address_set::IpAddressSet;

impl IpAddressSet {
    /// The number of IPv4 addresses in the set, and the number of IPv6 addresses. Goes over the
    /// blocks once.
    ///
    /// ```
    /// # use fosibegan_core::in_examples::*;
    /// # use fosibegan_core::plain_std::vec;
    /// # ended(|| {
    /// let v6 = vec![in Global; "::/0".parse::<Ipv6Network>()?]?;
    /// let set = IpAddressSet::from_lists(vec![in Global; "192.0.2.0/25".parse::<Ipv4Network>()?]?, v6);
    /// let (v4, v6) = set.address_counts();
    /// assert_eq!(v4, fosibegan_core::ipnetwork_sets::AddressCount::from(128));
    /// assert_eq!(v6, fosibegan_core::ipnetwork_sets::AddressCount::AllOfIpv6);
    /// # Ok(())
    /// # });
    /// ```
    pub fn address_counts(&self) -> (AddressCount, AddressCount) {
        (self.v4().address_count(), self.v6().address_count())
    }

    /// The number of blocks in the set, of both families together.
    ///
    /// ```
    /// # use fosibegan_core::in_examples::*;
    /// # use fosibegan_core::plain_std::vec;
    /// # ended(|| {
    /// let v6 = vec![in Global; "::/0".parse::<Ipv6Network>()?]?;
    /// let set = IpAddressSet::from_lists(vec![in Global; "192.0.2.0/25".parse::<Ipv4Network>()?]?, v6);
    /// assert_eq!(set.len(), 2);
    /// # Ok(())
    /// # });
    /// ```
    pub fn len(&self) -> usize {
        self.v4().blocks().len() + self.v6().blocks().len()
    }
}
