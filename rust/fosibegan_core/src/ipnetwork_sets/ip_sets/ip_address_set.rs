// Written by scripts/plain out of crates/ipnetwork_sets/src/ip_sets/ip_address_set.rt

//! The type of a set of addresses of either family.

use crate::plain_std::vec::Vec;
use crate::ipnetwork_sets::ip_sets::blocks::IpBlocks;
use crate::ipnetwork_sets::{AddressSet, Blocks};
use crate::ipnetwork::{IpAddr, IpNetwork, Ipv4Network, Ipv6Network};
use crate::plain_std::alloc::AllocError;

/// A set of addresses of either family: the maximal blocks of its IPv4 addresses, in ascending
/// order, followed by those of its IPv6 addresses. Each set has one such list, and no list of
/// networks with the same addresses is shorter. An IPv4-mapped IPv6 address is an IPv6 address, not
/// an IPv4 address.
///
/// ```
/// # use fosibegan_core::in_examples::*;
/// # ended(|| {
/// let networks = ["2001:db8::/32".parse::<IpNetwork>()?, "192.0.2.0/25".parse()?, "192.0.2.128/25".parse()?];
/// let set = IpAddressSet::from_networks(&networks, Vec::new(Global), Vec::new(Global))?;
/// assert!(set.iter().eq(["192.0.2.0/24".parse()?, "2001:db8::/32".parse()?]));
/// # Ok(())
/// # });
/// ```
#[derive(Debug)]
pub struct IpAddressSet {
    v4: AddressSet<Ipv4Network>,
    v6: AddressSet<Ipv6Network>,
}

impl IpAddressSet {
    /// The set of the addresses of networks of either family, which may have host bits and be in
    /// any order. The networks of the families are stored in `v4_memory` and `v6_memory`, whose
    /// contents are dropped first. `AllocError` means that one of them had to grow and memory ran
    /// out.
    ///
    /// Sorts each family and goes over it once.
    ///
    /// ```
    /// # use fosibegan_core::in_examples::*;
    /// # ended(|| {
    /// let networks = ["::1/128".parse::<IpNetwork>()?, "10.1.2.3/8".parse()?];
    /// let set = IpAddressSet::from_networks(&networks, Vec::new(Global), Vec::new(Global))?;
    /// assert!(set.iter().eq(["10.0.0.0/8".parse()?, "::1/128".parse()?]));
    /// # Ok(())
    /// # });
    /// ```
    pub fn from_networks(
        networks: &[IpNetwork],
        mut v4_memory: Vec<Ipv4Network>,
        mut v6_memory: Vec<Ipv6Network>,
    ) -> Result<Self, AllocError> {
        v4_memory.clear();
        v6_memory.clear();
        for network in networks {
            push_network(&mut v4_memory, &mut v6_memory, *network)?;
        }
        Ok(IpAddressSet::from_lists(v4_memory, v6_memory))
    }

    /// The set of the addresses of the networks of both lists, which may have host bits and be in
    /// any order.
    ///
    /// Sorts each list in place and goes over it once. `into_parts`, and `into_blocks` of each
    /// part, return the lists.
    ///
    /// ```
    /// # use fosibegan_core::in_examples::*;
    /// # use fosibegan_core::plain_std::vec;
    /// # ended(|| {
    /// let v4 = vec![in Global; "192.0.2.0/25".parse::<Ipv4Network>()?, "192.0.2.128/25".parse()?]?;
    /// let set = IpAddressSet::from_lists(v4, vec![in Global; "::1/64".parse::<Ipv6Network>()?]?);
    /// assert!(set.iter().eq(["192.0.2.0/24".parse()?, "::/64".parse()?]));
    /// # Ok(())
    /// # });
    /// ```
    pub fn from_lists(v4: Vec<Ipv4Network>, v6: Vec<Ipv6Network>) -> Self {
        IpAddressSet::from_parts(AddressSet::from_networks(v4), AddressSet::from_networks(v6))
    }

    /// The set of the addresses of both sets.
    ///
    /// ```
    /// # use fosibegan_core::in_examples::*;
    /// # use fosibegan_core::plain_std::vec;
    /// # ended(|| {
    /// let v4 = AddressSet::from_networks(vec![in Global; "192.0.2.0/24".parse::<Ipv4Network>()?]?);
    /// let v6 = AddressSet::from_networks(Vec::<Ipv6Network>::new(Global));
    /// assert!(IpAddressSet::from_parts(v4, v6).iter().eq(["192.0.2.0/24".parse()?]));
    /// # Ok(())
    /// # });
    /// ```
    pub fn from_parts(v4: AddressSet<Ipv4Network>, v6: AddressSet<Ipv6Network>) -> Self {
        // The clauses of these calls say that the lists are those of sets.
        let _ = v4.blocks();
        let _ = v6.blocks();
        IpAddressSet { v4, v6 }
    }

    /// The set of the IPv4 addresses, and that of the IPv6 addresses.
    ///
    /// ```
    /// # use fosibegan_core::in_examples::*;
    /// # use fosibegan_core::plain_std::vec;
    /// # ended(|| {
    /// let v4 = vec![in Global; "192.0.2.0/24".parse::<Ipv4Network>()?]?;
    /// let (v4, v6) = IpAddressSet::from_lists(v4, Vec::new(Global)).into_parts();
    /// assert_eq!(v4.blocks(), ["192.0.2.0/24".parse()?].as_slice());
    /// assert!(v6.is_empty());
    /// # Ok(())
    /// # });
    /// ```
    pub fn into_parts(self) -> (AddressSet<Ipv4Network>, AddressSet<Ipv6Network>) {
        (self.v4, self.v6)
    }

    /// The set of the IPv4 addresses.
    ///
    /// ```
    /// # use fosibegan_core::in_examples::*;
    /// # use fosibegan_core::plain_std::vec;
    /// # ended(|| {
    /// let v4 = vec![in Global; "192.0.2.0/24".parse::<Ipv4Network>()?]?;
    /// let set = IpAddressSet::from_lists(v4, Vec::new(Global));
    /// let range = (Ipv4Addr::new(192, 0, 2, 0), Ipv4Addr::new(192, 0, 2, 255));
    /// assert!(set.v4().ranges().eq([range]));
    /// # Ok(())
    /// # });
    /// ```
    pub fn v4(&self) -> &AddressSet<Ipv4Network> {
        &self.v4
    }

    /// The set of the IPv6 addresses.
    ///
    /// ```
    /// # use fosibegan_core::in_examples::*;
    /// # use fosibegan_core::plain_std::vec;
    /// # ended(|| {
    /// let v6 = vec![in Global; "::ffff:192.0.2.0/120".parse::<Ipv6Network>()?]?;
    /// let set = IpAddressSet::from_lists(Vec::new(Global), v6);
    /// assert_eq!(set.v6().address_count(), fosibegan_core::ipnetwork_sets::AddressCount::from(256));
    /// # Ok(())
    /// # });
    /// ```
    pub fn v6(&self) -> &AddressSet<Ipv6Network> {
        &self.v6
    }

    /// An iterator over the IPv4 blocks, followed by the IPv6 blocks, each in ascending order.
    ///
    /// ```
    /// # use fosibegan_core::in_examples::*;
    /// # use fosibegan_core::plain_std::vec;
    /// # ended(|| {
    /// let v6 = vec![in Global; "::1/128".parse::<Ipv6Network>()?]?;
    /// let set = IpAddressSet::from_lists(vec![in Global; "192.0.2.0/24".parse::<Ipv4Network>()?]?, v6);
    /// assert!(set.iter().eq(["192.0.2.0/24".parse()?, "::1/128".parse()?]));
    /// # Ok(())
    /// # });
    /// ```
    pub fn iter(&self) -> IpBlocks<Blocks<'_, Ipv4Network>, Blocks<'_, Ipv6Network>> {
        IpBlocks::of(self.v4.iter(), self.v6.iter())
    }

    /// Adds the addresses of the network to the set, in the list of its family, and returns whether
    /// any of them is new. Host bits are ignored. The list grows by at most one block. `AllocError`
    /// means that it had to grow and memory ran out; the set is then unchanged.
    ///
    /// ```
    /// # use fosibegan_core::in_examples::*;
    /// # use fosibegan_core::plain_std::vec;
    /// # ended(|| {
    /// let v4 = vec![in Global; "192.0.2.0/25".parse::<Ipv4Network>()?]?;
    /// let mut set = IpAddressSet::from_lists(v4, Vec::new(Global));
    /// assert!(set.insert("192.0.2.128/25".parse()?)?);
    /// assert!(set.insert("2001:db8::/32".parse()?)?);
    /// assert!(set.iter().eq(["192.0.2.0/24".parse()?, "2001:db8::/32".parse()?]));
    /// # Ok(())
    /// # });
    /// ```
    pub fn insert(&mut self, network: IpNetwork) -> Result<bool, AllocError> {
        match network {
            IpNetwork::V4(network) => self.v4.insert(network),
            IpNetwork::V6(network) => self.v6.insert(network),
        }
    }

    /// Removes the addresses of the network from the set, in the list of its family, and returns
    /// whether any of them was in it. Host bits are ignored. A block that has other addresses too
    /// is split. `AllocError` means that the list had to grow and memory ran out; the set is then
    /// unchanged.
    ///
    /// ```
    /// # use fosibegan_core::in_examples::*;
    /// # use fosibegan_core::plain_std::vec;
    /// # ended(|| {
    /// let v4 = vec![in Global; "192.0.2.0/24".parse::<Ipv4Network>()?]?;
    /// let mut set = IpAddressSet::from_lists(v4, vec![in Global; "::1/128".parse::<Ipv6Network>()?]?);
    /// assert!(set.remove("192.0.2.0/25".parse()?)?);
    /// assert!(!set.remove("2001:db8::/32".parse()?)?);
    /// assert!(set.iter().eq(["192.0.2.128/25".parse()?, "::1/128".parse()?]));
    /// # Ok(())
    /// # });
    /// ```
    pub fn remove(&mut self, network: IpNetwork) -> Result<bool, AllocError> {
        match network {
            IpNetwork::V4(network) => self.v4.remove(network),
            IpNetwork::V6(network) => self.v6.remove(network),
        }
    }

    /// Whether the set has no addresses.
    ///
    /// ```
    /// # use fosibegan_core::in_examples::*;
    /// assert!(IpAddressSet::from_lists(Vec::new(Global), Vec::new(Global)).is_empty());
    /// ```
    pub fn is_empty(&self) -> bool {
        self.v4().is_empty() && self.v6().is_empty()
    }

    /// Whether the address is in the set. Takes one binary search over the blocks of its family.
    ///
    /// ```
    /// # use fosibegan_core::in_examples::*;
    /// # use fosibegan_core::plain_std::vec;
    /// # ended(|| {
    /// let v4 = vec![in Global; "192.0.2.0/24".parse::<Ipv4Network>()?]?;
    /// let set = IpAddressSet::from_lists(v4, Vec::new(Global));
    /// assert!(set.contains("192.0.2.9".parse()?));
    /// assert!(!set.contains("::ffff:192.0.2.9".parse()?));
    /// # Ok(())
    /// # });
    /// ```
    pub fn contains(&self, addr: IpAddr) -> bool {
        match addr {
            IpAddr::V4(addr) => self.v4().contains(addr),
            IpAddr::V6(addr) => self.v6().contains(addr),
        }
    }

    /// Whether each address of the network is in the set. Host bits are ignored. Takes one binary
    /// search over the blocks of its family.
    ///
    /// ```
    /// # use fosibegan_core::in_examples::*;
    /// # use fosibegan_core::plain_std::vec;
    /// # ended(|| {
    /// let v6 = vec![in Global; "2001:db8::/33".parse::<Ipv6Network>()?]?;
    /// let set = IpAddressSet::from_lists(Vec::new(Global), v6);
    /// assert!(set.covers("2001:db8:7fff::/48".parse()?));
    /// assert!(!set.covers("2001:db8::/32".parse()?));
    /// # Ok(())
    /// # });
    /// ```
    pub fn covers(&self, network: IpNetwork) -> bool {
        match network {
            IpNetwork::V4(network) => self.v4().covers(network),
            IpNetwork::V6(network) => self.v6().covers(network),
        }
    }

    /// Whether some address of the network is in the set. Host bits are ignored. Takes one binary
    /// search over the blocks of its family.
    ///
    /// ```
    /// # use fosibegan_core::in_examples::*;
    /// # use fosibegan_core::plain_std::vec;
    /// # ended(|| {
    /// let v4 = vec![in Global; "192.0.2.0/25".parse::<Ipv4Network>()?]?;
    /// let set = IpAddressSet::from_lists(v4, Vec::new(Global));
    /// assert!(set.overlaps("192.0.2.0/24".parse()?));
    /// assert!(!set.overlaps("::/0".parse()?));
    /// # Ok(())
    /// # });
    /// ```
    pub fn overlaps(&self, network: IpNetwork) -> bool {
        match network {
            IpNetwork::V4(network) => self.v4().overlaps(network),
            IpNetwork::V6(network) => self.v6().overlaps(network),
        }
    }
}

// Appends the network to the list of its family.
fn push_network(
    v4: &mut Vec<Ipv4Network>,
    v6: &mut Vec<Ipv6Network>,
    network: IpNetwork,
) -> Result<(), AllocError> {
    match network {
        IpNetwork::V4(network) => v4.push(network)?,
        IpNetwork::V6(network) => v6.push(network)?,
    }
    Ok(())
}
