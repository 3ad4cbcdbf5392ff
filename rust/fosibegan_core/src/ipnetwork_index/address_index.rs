// Written by scripts/plain out of crates/ipnetwork_index/src/address_index.rt

//! The index of a set of addresses.

use crate::plain_std::vec::Vec;
use crate::ipnetwork_index::cuts::{closed, cuts_of};
use crate::ipnetwork_index::indexed_network::IndexedNetwork;
use crate::ipnetwork_index::partition::Partition;
use crate::ipnetwork_index::starts::part_bits;
use crate::ipnetwork_sets::AddressSet;
use crate::plain_std::alloc::{AllocError, Global};

/// A set of addresses of one family that is searched for addresses and does not change.
///
/// ```
/// # use fosibegan_core::in_examples::*;
/// # ended(|| {
/// let networks = ["10.0.0.0/8".parse::<Ipv4Network>()?, "192.0.2.0/24".parse()?];
/// let set = AddressSet::from_networks(Vec::from_array(Global, networks)?);
/// let index = AddressIndex::from_set(Global, &set)?;
/// assert!(index.contains(Ipv4Addr::new(10, 1, 2, 3)));
/// assert!(!index.contains(Ipv4Addr::new(192, 0, 3, 0)));
/// # Ok(())
/// # });
/// ```
#[derive(Clone)]
pub struct AddressIndex<N: IndexedNetwork> {
    // The addresses, cut where the set begins or ends.
    partition: Partition<N>,
    // Whether the first range is in the set. Of two neighbours, exactly one is.
    first_is_in: bool,
}

impl<N: IndexedNetwork> AddressIndex<N> {
    /// The index of a set. Goes over its blocks once. `AllocError` when out of memory.
    ///
    /// ```
    /// # use fosibegan_core::in_examples::*;
    /// # use fosibegan_core::plain_std::vec;
    /// # ended(|| {
    /// let networks = vec![in Global; "2001:db8::/32".parse::<Ipv6Network>()?]?;
    /// let set = AddressSet::from_networks(networks);
    /// let index = AddressIndex::from_set(Global, &set)?;
    /// assert!(index.contains("2001:db8::1".parse()?));
    /// # Ok(())
    /// # });
    /// ```
    pub fn from_set(alloc: Global, set: &AddressSet<N>) -> Result<Self, AllocError> {
        // The clause `set` of this call says that these are the blocks of a set.
        let _ = set.blocks();
        let cuts = cuts_of(alloc, set)?;
        let first_is_in = set.contains(N::whole().network());
        let lasts = closed::<N>(cuts)?;
        let bits = part_bits(lasts.len());
        let partition = Partition::new(alloc, lasts.as_slice(), bits)?;
        Ok(AddressIndex {
            partition,
            first_is_in,
        })
    }

    /// The index of the addresses of networks, which may have host bits and be in any order. Sorts
    /// them in place. `AllocError` when out of memory.
    ///
    /// ```
    /// # use fosibegan_core::in_examples::*;
    /// # use fosibegan_core::plain_std::vec;
    /// # ended(|| {
    /// let networks = vec![in Global; "192.0.2.9/25".parse::<Ipv4Network>()?]?;
    /// let index = AddressIndex::from_networks(Global, networks)?;
    /// assert!(index.contains(Ipv4Addr::new(192, 0, 2, 127)));
    /// # Ok(())
    /// # });
    /// ```
    pub fn from_networks(alloc: Global, networks: Vec<N>) -> Result<Self, AllocError> {
        let set = AddressSet::from_networks(networks);
        let index = AddressIndex::from_set(alloc, &set)?;
        Ok(index)
    }

    /// Whether the address is in the set. Takes a few reads if the blocks are spread out, and
    /// otherwise about as many as a binary search.
    ///
    /// ```
    /// # use fosibegan_core::in_examples::*;
    /// # use fosibegan_core::plain_std::vec;
    /// # ended(|| {
    /// let networks = vec![in Global; "192.0.2.0/25".parse::<Ipv4Network>()?]?;
    /// let set = AddressSet::from_networks(networks);
    /// let index = AddressIndex::from_set(Global, &set)?;
    /// assert!(index.contains(Ipv4Addr::new(192, 0, 2, 127)));
    /// assert!(!index.contains(Ipv4Addr::new(192, 0, 2, 128)));
    /// # Ok(())
    /// # });
    /// ```
    pub fn contains(&self, addr: N::Addr) -> bool {
        let odd = self.partition.place_of(N::number_of(addr)) % 2 == 1;
        odd != self.first_is_in
    }

    /// Writes whether each address is in the set to the same place in `answers`. There must be as
    /// many answers as addresses.
    ///
    /// ```
    /// # use fosibegan_core::in_examples::*;
    /// # use fosibegan_core::plain_std::vec;
    /// # ended(|| {
    /// let networks = vec![in Global; "192.0.2.0/25".parse::<Ipv4Network>()?]?;
    /// let set = AddressSet::from_networks(networks);
    /// let index = AddressIndex::from_set(Global, &set)?;
    /// let mut answers = [false, true];
    /// let addrs = [Ipv4Addr::new(192, 0, 2, 127), Ipv4Addr::new(192, 0, 2, 128)];
    /// index.contains_each(&addrs, &mut answers);
    /// assert_eq!(answers, [true, false]);
    /// # Ok(())
    /// # });
    /// ```
    ///
    /// # Panics
    ///
    /// Panics if there are not as many answers as addresses.
    pub fn contains_each(&self, addrs: &[N::Addr], answers: &mut [bool]) {
        assert!(
            answers.len() == addrs.len(),
            "contains_each: there are not as many answers as addresses"
        );
        for place in 0..addrs.len() {
            answers[place] = self.contains(addrs[place]);
        }
    }

    /// The number of ranges that the set cuts the addresses into: each lies entirely inside or
    /// entirely outside the set. There are at most one more than twice as many ranges as blocks. The
    /// index has the last number of each range, of 4 bytes for IPv4 and 16 for IPv6, for IPv6
    /// possibly its high half again, of 8, and places of 4 bytes: two to four for each range, or one
    /// to two from 2^14 ranges on (`part_bits`), but no more than 2^20.
    ///
    /// ```
    /// # use fosibegan_core::in_examples::*;
    /// # use fosibegan_core::plain_std::vec;
    /// # ended(|| {
    /// let networks = vec![in Global; "192.0.2.0/25".parse::<Ipv4Network>()?]?;
    /// let set = AddressSet::from_networks(networks);
    /// assert_eq!(AddressIndex::from_set(Global, &set)?.range_count(), 3);
    /// # Ok(())
    /// # });
    /// ```
    pub fn range_count(&self) -> usize {
        self.partition.len()
    }
}
