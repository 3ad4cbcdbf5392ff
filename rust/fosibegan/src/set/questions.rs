//! Questions about a set.

use crate::convert::{asked_v4, asked_v6};
use crate::{AddressCount, AddressSet, FrozenSet, IpNetwork, Network};
use core::net::IpAddr;

impl AddressSet {
    /// Returns `true` if the set contains an address, or one of the two forms of an IPv4-mapped
    /// address.
    ///
    /// For an IPv4-mapped address such as `::ffff:10.1.2.3`, this is `true` if the set contains the
    /// IPv4 address (`10.1.2.3`) or the IPv6 address itself. For every other address it is
    /// the same as [`contains`](Self::contains): `10.1.2.3` itself is not looked for among mapped
    /// networks. Where it should be, pass its mapped form, `v4.to_ipv6_mapped()`.
    ///
    /// # Examples
    ///
    /// ```
    /// use fosibegan::{AddressSet, IpNetwork};
    /// use std::net::Ipv4Addr;
    ///
    /// let denied: AddressSet =
    ///     ["10.0.0.0/8".parse::<IpNetwork>()?, "::ffff:192.0.2.0/120".parse()?].into();
    /// assert!(denied.contains_mapped("::ffff:10.1.2.3".parse()?));
    /// assert!(denied.contains_mapped("::ffff:192.0.2.1".parse()?));
    ///
    /// let v4 = Ipv4Addr::new(192, 0, 2, 1);
    /// assert!(!denied.contains_mapped(v4.into()));
    /// assert!(denied.contains_mapped(v4.to_ipv6_mapped().into()));
    /// # Ok::<(), Box<dyn std::error::Error>>(())
    /// ```
    #[inline]
    #[must_use]
    pub fn contains_mapped(&self, addr: IpAddr) -> bool {
        if let IpAddr::V6(v6) = addr {
            if let Some(v4) = v6.to_ipv4_mapped() {
                return self.contains(IpAddr::V4(v4)) || self.contains(addr);
            }
        }
        self.contains(addr)
    }
}

impl<N: Network> AddressSet<N> {
    /// Returns `true` if the set contains no address.
    ///
    /// # Examples
    ///
    /// ```
    /// use fosibegan::{AddressSet, IpNetwork};
    ///
    /// let file = "# nobody left\n";
    /// let denied = file
    ///     .lines()
    ///     .filter(|line| !line.starts_with('#'))
    ///     .map(str::parse::<IpNetwork>)
    ///     .collect::<Result<AddressSet, _>>()?;
    /// // This list would let everybody in: keep the last one that was not empty.
    /// assert!(denied.is_empty());
    /// # Ok::<(), Box<dyn std::error::Error>>(())
    /// ```
    #[must_use]
    pub fn is_empty(&self) -> bool {
        self.v4.is_empty() && self.v6.is_empty()
    }

    /// Returns `true` if the set contains an address. Takes a binary search.
    ///
    /// An address is never in a network of the other family, and an IPv4-mapped address such as
    /// `::ffff:10.1.2.3` is an IPv6 address: see [above](AddressSet#ipv4-mapped-addresses).
    ///
    /// # Examples
    ///
    /// ```
    /// use fosibegan::{AddressSet, IpNetwork};
    /// use std::net::IpAddr;
    ///
    /// let allowed = AddressSet::from(["10.0.0.0/8".parse::<IpNetwork>()?]);
    /// let client: IpAddr = "::ffff:10.1.2.3".parse()?;
    /// assert!(allowed.contains(client.to_canonical()));
    /// assert!(!allowed.contains(client));
    /// # Ok::<(), Box<dyn std::error::Error>>(())
    /// ```
    #[inline]
    #[must_use]
    pub fn contains(&self, addr: N::Addr) -> bool {
        match N::either_address(addr) {
            IpAddr::V4(addr) => self.v4.contains(asked_v4(addr)),
            IpAddr::V6(addr) => self.v6.contains(asked_v6(addr)),
        }
    }

    /// Returns `true` if the set contains every address of a network. Takes a binary search.
    ///
    /// # Examples
    ///
    /// ```
    /// use fosibegan::{AddressSet, IpNetwork};
    ///
    /// let set: AddressSet =
    ///     ["192.0.2.0/25".parse::<IpNetwork>()?, "192.0.2.128/25".parse()?].into();
    /// assert!(set.covers("192.0.2.0/24".parse()?));
    /// assert!(!set.covers("192.0.2.0/23".parse()?));
    /// # Ok::<(), Box<dyn std::error::Error>>(())
    /// ```
    #[inline]
    #[must_use]
    pub fn covers(&self, network: N) -> bool {
        match network.either() {
            IpNetwork::V4(network) => self.v4.covers(network.asked()),
            IpNetwork::V6(network) => self.v6.covers(network.asked()),
        }
    }

    /// Returns `true` if the set contains any address of a network. Takes a binary search.
    ///
    /// # Examples
    ///
    /// ```
    /// use fosibegan::{AddressSet, IpNetwork};
    ///
    /// let set = AddressSet::from(["192.0.2.0/25".parse::<IpNetwork>()?]);
    /// assert!(set.overlaps("192.0.2.0/24".parse()?));
    /// assert!(!set.overlaps("192.0.2.128/25".parse()?));
    /// # Ok::<(), Box<dyn std::error::Error>>(())
    /// ```
    #[inline]
    #[must_use]
    pub fn overlaps(&self, network: N) -> bool {
        match network.either() {
            IpNetwork::V4(network) => self.v4.overlaps(network.asked()),
            IpNetwork::V6(network) => self.v6.overlaps(network.asked()),
        }
    }

    /// Returns the number of networks that the set is kept as: the fewest that contain exactly its
    /// addresses. For the number of addresses see [`address_count`](Self::address_count).
    ///
    /// # Examples
    ///
    /// ```
    /// use fosibegan::{AddressSet, IpNetwork};
    ///
    /// let set: AddressSet =
    ///     ["192.0.2.0/25".parse::<IpNetwork>()?, "192.0.2.128/25".parse()?].into();
    /// assert_eq!(set.len(), 1);
    /// # Ok::<(), Box<dyn std::error::Error>>(())
    /// ```
    #[must_use]
    pub fn len(&self) -> usize {
        self.v4.blocks().len() + self.v6.blocks().len()
    }

    /// Returns the number of addresses, which is exact even for the set of all addresses of both
    /// families. Goes over the networks once.
    ///
    /// # Examples
    ///
    /// ```
    /// use fosibegan::{AddressSet, IpNetwork};
    ///
    /// let set: AddressSet =
    ///     ["192.0.2.0/24".parse::<IpNetwork>()?, "192.0.2.128/25".parse()?].into();
    /// assert_eq!(set.address_count(), 256);
    /// assert_eq!((!AddressSet::new()).address_count().to_string(), "340282366920938463463374607436063178752");
    /// # Ok::<(), Box<dyn std::error::Error>>(())
    /// ```
    #[must_use]
    pub fn address_count(&self) -> AddressCount {
        AddressCount::of_parts(self.v4.address_count(), self.v6.address_count())
    }

    /// Returns `true` if each address of this set is in `other`. Goes over both lists once at most.
    ///
    /// # Examples
    ///
    /// ```
    /// use fosibegan::{AddressSet, IpNetwork};
    ///
    /// let office = AddressSet::from(["10.1.0.0/16".parse::<IpNetwork>()?]);
    /// let private = AddressSet::from(["10.0.0.0/8".parse::<IpNetwork>()?]);
    /// assert!(office.is_subset(&private));
    /// assert!(AddressSet::new().is_subset(&office));
    /// # Ok::<(), Box<dyn std::error::Error>>(())
    /// ```
    #[must_use]
    pub fn is_subset(&self, other: &Self) -> bool {
        self.v4.is_subset_of(&other.v4) && self.v6.is_subset_of(&other.v6)
    }

    /// Returns `true` if each address of `other` is in this set. Goes over both lists once at most.
    ///
    /// # Examples
    ///
    /// ```
    /// use fosibegan::{AddressSet, IpNetwork};
    ///
    /// let office = AddressSet::from(["10.1.0.0/16".parse::<IpNetwork>()?]);
    /// let private = AddressSet::from(["10.0.0.0/8".parse::<IpNetwork>()?]);
    /// assert!(private.is_superset(&office));
    /// # Ok::<(), Box<dyn std::error::Error>>(())
    /// ```
    #[must_use]
    pub fn is_superset(&self, other: &Self) -> bool {
        other.is_subset(self)
    }

    /// Returns `true` if no address is in both sets. Goes over both lists once at most.
    ///
    /// # Examples
    ///
    /// ```
    /// use fosibegan::{AddressSet, IpNetwork};
    ///
    /// let office = AddressSet::from(["10.1.0.0/16".parse::<IpNetwork>()?]);
    /// let guests = AddressSet::from(["10.2.0.0/16".parse::<IpNetwork>()?]);
    /// assert!(office.is_disjoint(&guests));
    /// # Ok::<(), Box<dyn std::error::Error>>(())
    /// ```
    #[must_use]
    pub fn is_disjoint(&self, other: &Self) -> bool {
        self.v4.is_disjoint_from(&other.v4) && self.v6.is_disjoint_from(&other.v6)
    }

    /// Returns a copy of the set in the form that is searched fastest and does not change: a
    /// [`FrozenSet`]. Goes over the networks once, and leaves the set as it is.
    ///
    /// # Examples
    ///
    /// ```
    /// use fosibegan::{AddressSet, FrozenSet, IpNetwork};
    ///
    /// let set = AddressSet::from(["10.0.0.0/8".parse::<IpNetwork>()?]);
    /// let frozen: FrozenSet = set.freeze();
    /// assert!(frozen.contains("10.1.2.3".parse()?));
    /// # Ok::<(), Box<dyn std::error::Error>>(())
    /// ```
    #[must_use]
    pub fn freeze(&self) -> FrozenSet<N> {
        FrozenSet::from(self)
    }
}
