//! What a network of either family answers about addresses and about other networks.

use super::together;
use crate::{Exclude, Hosts, IpNetwork, Ipv4Network, Ipv6Network, Subnets, Summarize};
use alloc::vec::Vec;
use core::net::IpAddr;
use core::ops::RangeInclusive;

impl IpNetwork {
    /// Returns `true` if the address is in the network. No address of the other family is, not even
    /// an IPv4-mapped one.
    ///
    /// Where IPv4 addresses may come as IPv4-mapped IPv6 addresses, use
    /// `contains(addr.to_canonical())`, or [`contains_mapped`](Self::contains_mapped).
    ///
    /// # Examples
    ///
    /// ```
    /// use fosibegan::IpNetwork;
    /// use std::net::IpAddr;
    ///
    /// let network: IpNetwork = "10.0.0.0/8".parse()?;
    /// assert!(network.contains("10.1.9.32".parse()?));
    ///
    /// let mapped: IpAddr = "::ffff:10.1.9.32".parse()?;
    /// assert!(network.contains(mapped.to_canonical()));
    /// assert!(!network.contains(mapped));
    /// # Ok::<(), Box<dyn std::error::Error>>(())
    /// ```
    #[inline]
    #[must_use]
    pub const fn contains(&self, addr: IpAddr) -> bool {
        match (self, addr) {
            (Self::V4(network), IpAddr::V4(addr)) => network.contains(addr),
            (Self::V6(network), IpAddr::V6(addr)) => network.contains(addr),
            _ => false,
        }
    }

    /// Returns `true` if the address is in the network, or if it is an IPv4-mapped IPv6 address and
    /// its IPv4 address is in the network.
    ///
    /// # Examples
    ///
    /// ```
    /// use fosibegan::IpNetwork;
    ///
    /// let network: IpNetwork = "10.0.0.0/8".parse()?;
    /// assert!(network.contains_mapped("::ffff:10.1.9.32".parse()?));
    ///
    /// let all_mapped: IpNetwork = "::ffff:0:0/96".parse()?;
    /// assert!(all_mapped.contains_mapped("::ffff:10.1.9.32".parse()?));
    /// assert!(!all_mapped.contains_mapped("10.1.9.32".parse()?));
    /// # Ok::<(), Box<dyn std::error::Error>>(())
    /// ```
    #[inline]
    #[must_use]
    pub const fn contains_mapped(&self, addr: IpAddr) -> bool {
        self.contains(addr) || self.contains(addr.to_canonical())
    }

    /// Returns `true` if each address of this network is also in `other`. Networks of two families
    /// have no address in common. Host bits make no difference.
    ///
    /// # Examples
    ///
    /// ```
    /// use fosibegan::IpNetwork;
    ///
    /// let network: IpNetwork = "10.1.0.0/16".parse()?;
    /// assert!(network.is_subnet_of("10.1.9.32/8".parse()?));
    /// assert!(!network.is_subnet_of("::/0".parse()?));
    /// # Ok::<(), Box<dyn std::error::Error>>(())
    /// ```
    #[inline]
    #[must_use]
    pub const fn is_subnet_of(self, other: Self) -> bool {
        match (self, other) {
            (Self::V4(network), Self::V4(other)) => network.is_subnet_of(other),
            (Self::V6(network), Self::V6(other)) => network.is_subnet_of(other),
            _ => false,
        }
    }

    /// Returns `true` if each address of `other` is also in this network. Networks of two families
    /// have no address in common. Host bits make no difference.
    ///
    /// # Examples
    ///
    /// ```
    /// use fosibegan::IpNetwork;
    ///
    /// let network: IpNetwork = "10.1.9.32/8".parse()?;
    /// assert!(network.is_supernet_of("10.1.0.0/16".parse()?));
    /// assert!(!network.is_supernet_of("::1/128".parse()?));
    /// # Ok::<(), Box<dyn std::error::Error>>(())
    /// ```
    #[inline]
    #[must_use]
    pub const fn is_supernet_of(self, other: Self) -> bool {
        other.is_subnet_of(self)
    }

    /// Returns `true` if some address is in both networks. Networks of two families have no address
    /// in common. Host bits make no difference.
    ///
    /// # Examples
    ///
    /// ```
    /// use fosibegan::IpNetwork;
    ///
    /// let network: IpNetwork = "10.1.0.0/16".parse()?;
    /// assert!(network.overlaps("10.0.0.0/8".parse()?));
    /// assert!(!network.overlaps("::/0".parse()?));
    /// # Ok::<(), Box<dyn std::error::Error>>(())
    /// ```
    #[inline]
    #[must_use]
    pub const fn overlaps(self, other: Self) -> bool {
        match (self, other) {
            (Self::V4(network), Self::V4(other)) => network.overlaps(other),
            (Self::V6(network), Self::V6(other)) => network.overlaps(other),
            _ => false,
        }
    }

    /// Returns the network with its host bits cleared: the same addresses, under the network's
    /// first address.
    ///
    /// # Examples
    ///
    /// ```
    /// use fosibegan::IpNetwork;
    ///
    /// let network: IpNetwork = "192.0.2.77/26".parse()?;
    /// assert_eq!(network.block(), "192.0.2.64/26".parse()?);
    /// # Ok::<(), Box<dyn std::error::Error>>(())
    /// ```
    #[inline]
    #[must_use]
    pub const fn block(self) -> Self {
        match self {
            Self::V4(network) => Self::V4(network.block()),
            Self::V6(network) => Self::V6(network.block()),
        }
    }

    /// Returns the network of this prefix length that contains this one, with its host bits
    /// cleared, or `None` if `prefix` is longer than the network's own prefix length.
    ///
    /// # Examples
    ///
    /// ```
    /// use fosibegan::IpNetwork;
    ///
    /// let network: IpNetwork = "192.0.2.77/26".parse()?;
    /// assert_eq!(network.supernet(24), Some("192.0.2.0/24".parse()?));
    /// assert_eq!(network.supernet(27), None);
    /// # Ok::<(), Box<dyn std::error::Error>>(())
    /// ```
    #[inline]
    #[must_use]
    pub const fn supernet(self, prefix: u8) -> Option<Self> {
        match self {
            Self::V4(network) => of_v4(network.supernet(prefix)),
            Self::V6(network) => of_v6(network.supernet(prefix)),
        }
    }

    /// Returns an iterator over the networks of this prefix length that are in this one, in
    /// ascending order, or `None` if `prefix` is shorter than the network's own prefix length, or
    /// greater than 32 for IPv4 or 128 for IPv6.
    ///
    /// The host bits of this network make no difference, and those of the subnets are cleared.
    ///
    /// # Examples
    ///
    /// ```
    /// use fosibegan::IpNetwork;
    ///
    /// let network: IpNetwork = "2001:db8::/32".parse()?;
    /// let mut subnets = network.subnets(48).unwrap();
    /// assert_eq!(subnets.nth(1), Some("2001:db8:1::/48".parse()?));
    /// assert!(network.subnets(31).is_none());
    /// # Ok::<(), Box<dyn std::error::Error>>(())
    /// ```
    #[must_use]
    pub fn subnets(self, prefix: u8) -> Option<Subnets<Self>> {
        Subnets::new(self, prefix)
    }

    /// Returns the network of the same prefix length that begins right after the last address of
    /// this one, or `None` if the family has no address after it.
    ///
    /// The host bits of the answer are cleared.
    ///
    /// # Examples
    ///
    /// ```
    /// use fosibegan::IpNetwork;
    ///
    /// let network: IpNetwork = "192.0.2.77/26".parse()?;
    /// assert_eq!(network.next(), Some("192.0.2.128/26".parse()?));
    /// let last: IpNetwork = "255.255.255.255/32".parse()?;
    /// assert_eq!(last.next(), None);
    /// # Ok::<(), Box<dyn std::error::Error>>(())
    /// ```
    #[inline]
    #[must_use]
    pub const fn next(self) -> Option<Self> {
        match self {
            Self::V4(network) => of_v4(network.next()),
            Self::V6(network) => of_v6(network.next()),
        }
    }

    /// Returns the network of the same prefix length that ends right before the first address of
    /// this one, or `None` if the family has no address before it.
    ///
    /// The host bits of the answer are cleared.
    ///
    /// # Examples
    ///
    /// ```
    /// use fosibegan::IpNetwork;
    ///
    /// let network: IpNetwork = "192.0.2.77/26".parse()?;
    /// assert_eq!(network.previous(), Some("192.0.2.0/26".parse()?));
    /// let first: IpNetwork = "::/128".parse()?;
    /// assert_eq!(first.previous(), None);
    /// # Ok::<(), Box<dyn std::error::Error>>(())
    /// ```
    #[inline]
    #[must_use]
    pub const fn previous(self) -> Option<Self> {
        match self {
            Self::V4(network) => of_v4(network.previous()),
            Self::V6(network) => of_v6(network.previous()),
        }
    }

    /// Returns an iterator over the addresses that hosts of this network can have, in ascending
    /// order: those of [`Ipv4Network::hosts`] or [`Ipv6Network::hosts`].
    ///
    /// # Examples
    ///
    /// ```
    /// use fosibegan::IpNetwork;
    ///
    /// let network: IpNetwork = "192.0.2.64/26".parse()?;
    /// let mut hosts = network.hosts();
    /// assert_eq!(hosts.next(), Some("192.0.2.65".parse()?));
    /// assert_eq!(hosts.last(), Some("192.0.2.126".parse()?));
    /// # Ok::<(), Box<dyn std::error::Error>>(())
    /// ```
    pub fn hosts(self) -> Hosts<Self> {
        Hosts::new(self)
    }

    /// Returns an iterator over the fewest networks that contain exactly the addresses of this
    /// network that are not in `other`, in ascending order.
    ///
    /// If the two have no address in common, as networks of two families never have, that is this
    /// network with its host bits cleared. If `other` contains this network, nothing is left.
    ///
    /// # Examples
    ///
    /// ```
    /// use fosibegan::IpNetwork;
    ///
    /// let network: IpNetwork = "10.0.0.0/8".parse()?;
    /// let left: Vec<String> =
    ///     network.exclude("10.64.0.0/10".parse()?).map(|each| each.to_string()).collect();
    /// assert_eq!(left, ["10.0.0.0/10", "10.128.0.0/9"]);
    /// # Ok::<(), Box<dyn std::error::Error>>(())
    /// ```
    pub fn exclude(self, other: Self) -> Exclude<Self> {
        Exclude::new(self, other)
    }

    /// Returns an iterator over the fewest networks that contain exactly the addresses of a range,
    /// in ascending order, or `None` if the ends of the range are addresses of two families.
    ///
    /// There are no networks if the range is empty. So a range whose ends are in the wrong order
    /// gives no networks.
    ///
    /// # Examples
    ///
    /// ```
    /// use fosibegan::IpNetwork;
    ///
    /// let range = "192.0.2.1".parse()?..="192.0.2.4".parse()?;
    /// let networks: Vec<String> = IpNetwork::summarize(range)
    ///     .ok_or("addresses of two families")?
    ///     .map(|each| each.to_string())
    ///     .collect();
    /// assert_eq!(networks, ["192.0.2.1/32", "192.0.2.2/31", "192.0.2.4/32"]);
    /// assert!(IpNetwork::summarize("0.0.0.0".parse()?..="::".parse()?).is_none());
    /// # Ok::<(), Box<dyn std::error::Error>>(())
    /// ```
    #[must_use]
    pub fn summarize(range: RangeInclusive<IpAddr>) -> Option<Summarize<Self>> {
        Summarize::of_either(&range)
    }

    /// Returns the fewest networks that contain exactly the addresses of all these networks, in
    /// ascending order, IPv4 first, and with their host bits cleared.
    ///
    /// Networks that lie in others are left out, and neighbours that fill a larger network are
    /// joined. The networks are taken by value: for those of a list that is kept, pass
    /// `list.iter().copied()`. Takes time *O*(*n* log *n*).
    ///
    /// # Examples
    ///
    /// ```
    /// use fosibegan::IpNetwork;
    ///
    /// let networks: Vec<IpNetwork> =
    ///     vec!["2001:db8::/32".parse()?, "10.128.0.0/9".parse()?, "10.0.0.0/9".parse()?];
    /// assert_eq!(
    ///     IpNetwork::aggregate(networks),
    ///     ["10.0.0.0/8".parse()?, "2001:db8::/32".parse()?],
    /// );
    /// # Ok::<(), Box<dyn std::error::Error>>(())
    /// ```
    #[must_use]
    pub fn aggregate(networks: impl IntoIterator<Item = Self>) -> Vec<Self> {
        let (mut v4, mut v6) = (Vec::new(), Vec::new());
        for network in networks {
            match network {
                Self::V4(network) => v4.push(network.asked()),
                Self::V6(network) => v6.push(network.asked()),
            }
        }
        let v4 = together::aggregate(v4)
            .into_iter()
            .map(Ipv4Network::from_core)
            .map(Self::V4);
        let v6 = together::aggregate(v6)
            .into_iter()
            .map(Ipv6Network::from_core)
            .map(Self::V6);
        v4.chain(v6).collect()
    }

    /// Returns the smallest network that contains all these networks, or `None` if there are none,
    /// or if there are some of each family.
    ///
    /// # Examples
    ///
    /// ```
    /// use fosibegan::IpNetwork;
    ///
    /// let networks: [IpNetwork; 2] = ["10.0.1.0/24".parse()?, "10.0.2.128/25".parse()?];
    /// assert_eq!(IpNetwork::spanning(networks), Some("10.0.0.0/22".parse()?));
    /// assert_eq!(IpNetwork::spanning(["10.0.1.0/24".parse()?, "::/0".parse()?]), None);
    /// # Ok::<(), Box<dyn std::error::Error>>(())
    /// ```
    #[must_use]
    pub fn spanning(networks: impl IntoIterator<Item = Self>) -> Option<Self> {
        let mut networks = networks.into_iter();
        let first = networks.next()?.block();
        networks.try_fold(first, |around, network| match (around, network) {
            (Self::V4(around), Self::V4(network)) => {
                Ipv4Network::spanning([around, network]).map(Self::V4)
            }
            (Self::V6(around), Self::V6(network)) => {
                Ipv6Network::spanning([around, network]).map(Self::V6)
            }
            _ => None,
        })
    }
}

/// The network of either family that is this one.
#[inline]
const fn of_v4(network: Option<Ipv4Network>) -> Option<IpNetwork> {
    match network {
        Some(network) => Some(IpNetwork::V4(network)),
        None => None,
    }
}

/// The network of either family that is this one.
#[inline]
const fn of_v6(network: Option<Ipv6Network>) -> Option<IpNetwork> {
    match network {
        Some(network) => Some(IpNetwork::V6(network)),
        None => None,
    }
}
