// Written by scripts/plain out of crates/ipnetwork_sets/src/address_set.rt

//! The type of a set of addresses.

use crate::plain_std::vec::Vec;
use crate::ipnetwork_sets::check::is_address_set;
use crate::ipnetwork_sets::{changes, search};
use crate::ipnetwork_blocks::{AddressSpace, aggregate_vec};
use crate::plain_std::alloc::AllocError;

/// A set of addresses of one family: the maximal blocks of the set, in ascending order. Each set
/// has one such list, and no list of networks with the same addresses is shorter.
///
/// ```
/// # use fosibegan_core::in_examples::*;
/// # use fosibegan_core::plain_std::vec;
/// # ended(|| {
/// let networks = vec![in Global; "2001:db8:8000::/33".parse::<Ipv6Network>()?, "2001:db8::/33".parse()?]?;
/// let set = AddressSet::from_networks(networks);
/// assert_eq!(set.blocks(), ["2001:db8::/32".parse()?].as_slice());
/// # Ok(())
/// # });
/// ```
#[derive(Clone, Debug)]
pub struct AddressSet<N: AddressSpace> {
    blocks: Vec<N>,
}

impl<N: AddressSpace> AddressSet<N> {
    /// The set of the addresses of the networks, which may have host bits and be in any order.
    ///
    /// Sorts the networks in place and goes over them once. `into_blocks` returns the list.
    ///
    /// ```
    /// # use fosibegan_core::in_examples::*;
    /// # use fosibegan_core::plain_std::vec;
    /// # ended(|| {
    /// let networks = vec![in Global; "192.0.2.0/25".parse::<Ipv4Network>()?, "192.0.2.128/25".parse()?]?;
    /// let set = AddressSet::from_networks(networks);
    /// assert_eq!(set.blocks()[0].canonical().as_str(), "192.0.2.0/24");
    /// # Ok(())
    /// # });
    /// ```
    pub fn from_networks(mut networks: Vec<N>) -> Self {
        aggregate_vec(&mut networks);
        AddressSet { blocks: networks }
    }

    /// The set with these blocks, if they are maximal in it, have no host bits and are in ascending
    /// order. If not, the list is returned as the error; `from_networks` accepts any list.
    ///
    /// Goes over the list once. `into_blocks` returns it.
    ///
    /// ```
    /// # use fosibegan_core::in_examples::*;
    /// # use fosibegan_core::plain_std::vec;
    /// # ended(|| {
    /// let halves = vec![in Global; "192.0.2.0/25".parse::<Ipv4Network>()?, "192.0.2.128/25".parse()?]?;
    /// assert!(AddressSet::from_blocks(halves).is_err());
    /// # Ok(())
    /// # });
    /// ```
    pub fn from_blocks(blocks: Vec<N>) -> Result<Self, Vec<N>> {
        if is_address_set::<N, N>(blocks.as_slice()) {
            Ok(AddressSet { blocks })
        } else {
            Err(blocks)
        }
    }

    // The set with these blocks.
    pub(crate) fn of_blocks(blocks: Vec<N>) -> Self {
        AddressSet { blocks }
    }

    /// The blocks, in ascending order.
    ///
    /// ```
    /// # use fosibegan_core::in_examples::*;
    /// # use fosibegan_core::plain_std::vec;
    /// # ended(|| {
    /// let networks = vec![in Global; "192.0.2.0/25".parse::<Ipv4Network>()?, "192.0.2.128/25".parse()?]?;
    /// let set = AddressSet::from_networks(networks);
    /// assert_eq!(set.blocks().len(), 1);
    /// # Ok(())
    /// # });
    /// ```
    pub fn blocks(&self) -> &[N] {
        self.blocks.as_slice()
    }

    /// The set's own list of blocks, in ascending order. It can serve as the memory for another
    /// set, such as a union.
    ///
    /// ```
    /// # use fosibegan_core::in_examples::*;
    /// # ended(|| {
    /// let halves = ["192.0.2.0/25".parse::<Ipv4Network>()?, "192.0.2.128/25".parse()?];
    /// let networks = Vec::from_array(Global, halves)?;
    /// let blocks = AddressSet::from_networks(networks).into_blocks();
    /// assert_eq!(blocks.as_slice(), ["192.0.2.0/24".parse()?].as_slice());
    /// # Ok(())
    /// # });
    /// ```
    pub fn into_blocks(self) -> Vec<N> {
        let AddressSet { blocks } = self;
        blocks
    }

    /// Adds the addresses of the network to the set, in place, and returns whether any of them is
    /// new. Host bits are ignored. One block replaces the blocks within the network and those that
    /// form a larger block with it, so the list grows by at most one block. `AllocError` means that
    /// it had to grow and memory ran out; the set is then unchanged.
    ///
    /// Takes a few binary searches, at most one step for each bit of the prefix length, and one
    /// move of the blocks after the network. So 400,000 single calls, for networks in no order, take
    /// 15 seconds, and `insert_all` 0.05.
    ///
    /// ```
    /// # use fosibegan_core::in_examples::*;
    /// # use fosibegan_core::plain_std::vec;
    /// # ended(|| {
    /// let mut set = AddressSet::from_networks(vec![in Global; "192.0.2.0/25".parse::<Ipv4Network>()?]?);
    /// assert!(set.insert("192.0.2.128/25".parse()?)?);
    /// assert_eq!(set.blocks(), ["192.0.2.0/24".parse()?].as_slice());
    /// assert!(!set.insert("192.0.2.64/26".parse()?)?);
    /// # Ok(())
    /// # });
    /// ```
    pub fn insert(&mut self, network: N) -> Result<bool, AllocError> {
        changes::insert(&mut self.blocks, network)
    }

    /// Adds the addresses of all the networks to the set, in place. Host bits are ignored.
    /// `AllocError` means that the list had to grow and memory ran out; the set is then unchanged.
    ///
    /// Appends the networks to the list, sorts it and goes over it once.
    ///
    /// ```
    /// # use fosibegan_core::in_examples::*;
    /// # use fosibegan_core::plain_std::vec;
    /// # ended(|| {
    /// let mut set = AddressSet::from_networks(vec![in Global; "192.0.2.0/25".parse::<Ipv4Network>()?]?);
    /// set.insert_all(&["192.0.3.0/24".parse()?, "192.0.2.128/25".parse()?])?;
    /// assert_eq!(set.blocks(), ["192.0.2.0/23".parse()?].as_slice());
    /// # Ok(())
    /// # });
    /// ```
    pub fn insert_all(&mut self, networks: &[N]) -> Result<(), AllocError> {
        changes::insert_all(&mut self.blocks, networks)
    }

    /// Removes the addresses of the network from the set, in place, and returns whether any of them
    /// was in it. Host bits are ignored. A block that has other addresses too is split into one
    /// block for each bit by which its prefix length is shorter than the network's: at most
    /// `WIDTH`. `AllocError` means that the list had to grow and memory ran out; the set is then
    /// unchanged.
    ///
    /// Takes a few binary searches, one step for each block of a split, and one move of the blocks
    /// after the network.
    ///
    /// ```
    /// # use fosibegan_core::in_examples::*;
    /// # use fosibegan_core::plain_std::vec;
    /// # ended(|| {
    /// let mut set = AddressSet::from_networks(vec![in Global; "192.0.2.0/24".parse::<Ipv4Network>()?]?);
    /// assert!(set.remove("192.0.2.64/26".parse()?)?);
    /// assert_eq!(set.blocks(), ["192.0.2.0/26".parse()?, "192.0.2.128/25".parse()?].as_slice());
    /// assert!(!set.remove("192.0.2.64/27".parse()?)?);
    /// # Ok(())
    /// # });
    /// ```
    pub fn remove(&mut self, network: N) -> Result<bool, AllocError> {
        changes::remove(&mut self.blocks, network)
    }

    /// Whether the set has no addresses.
    ///
    /// ```
    /// # use fosibegan_core::in_examples::*;
    /// let set = AddressSet::<Ipv4Network>::from_networks(Vec::new(Global));
    /// assert!(set.is_empty());
    /// ```
    pub fn is_empty(&self) -> bool {
        self.blocks.is_empty()
    }

    /// Whether the address is in the set. Takes one binary search over the blocks.
    ///
    /// ```
    /// # use fosibegan_core::in_examples::*;
    /// # use fosibegan_core::plain_std::vec;
    /// # ended(|| {
    /// let set = AddressSet::from_networks(vec![in Global; "192.0.2.0/25".parse::<Ipv4Network>()?]?);
    /// assert!(set.contains(Ipv4Addr::new(192, 0, 2, 127)));
    /// assert!(!set.contains(Ipv4Addr::new(192, 0, 2, 128)));
    /// # Ok(())
    /// # });
    /// ```
    pub fn contains(&self, addr: N::Addr) -> bool {
        search::contains(self.blocks.as_slice(), addr)
    }

    /// Whether each address of the network is in the set. Host bits are ignored. Takes one binary
    /// search over the blocks.
    ///
    /// ```
    /// # use fosibegan_core::in_examples::*;
    /// # use fosibegan_core::plain_std::vec;
    /// # ended(|| {
    /// let set = AddressSet::from_networks(vec![in Global; "192.0.2.0/25".parse::<Ipv4Network>()?]?);
    /// assert!(set.covers("192.0.2.64/26".parse()?));
    /// assert!(!set.covers("192.0.2.0/24".parse()?));
    /// # Ok(())
    /// # });
    /// ```
    pub fn covers(&self, network: N) -> bool {
        search::covers(self.blocks.as_slice(), network)
    }

    /// Whether some address of the network is in the set. Host bits are ignored. Takes one binary
    /// search over the blocks.
    ///
    /// ```
    /// # use fosibegan_core::in_examples::*;
    /// # use fosibegan_core::plain_std::vec;
    /// # ended(|| {
    /// let set = AddressSet::from_networks(vec![in Global; "192.0.2.0/25".parse::<Ipv4Network>()?]?);
    /// assert!(set.overlaps("192.0.2.0/24".parse()?));
    /// assert!(!set.overlaps("192.0.2.128/25".parse()?));
    /// # Ok(())
    /// # });
    /// ```
    pub fn overlaps(&self, network: N) -> bool {
        search::overlaps(self.blocks.as_slice(), network)
    }
}
