//! What an IPv4 network answers about other networks: those next to it, in it and around it.

use super::together;
use crate::{Exclude, Hosts, Ipv4Network, Subnets, Summarize};
use alloc::vec::Vec;
use core::net::Ipv4Addr;
use core::ops::RangeInclusive;

impl Ipv4Network {
    /// Returns `true` if each address of this network is also in `other`. Host bits make no
    /// difference.
    ///
    /// # Examples
    ///
    /// ```
    /// use fosibegan::Ipv4Network;
    ///
    /// let network: Ipv4Network = "10.1.0.0/16".parse()?;
    /// assert!(network.is_subnet_of("10.1.9.32/8".parse()?));
    /// assert!(!network.is_subnet_of("10.1.0.0/17".parse()?));
    /// # Ok::<(), Box<dyn std::error::Error>>(())
    /// ```
    #[inline]
    #[must_use]
    pub const fn is_subnet_of(self, other: Self) -> bool {
        (other.prefix() <= self.prefix()) & other.contains(self.ip())
    }

    /// Returns `true` if each address of `other` is also in this network. Host bits make no
    /// difference.
    ///
    /// # Examples
    ///
    /// ```
    /// use fosibegan::Ipv4Network;
    ///
    /// let network: Ipv4Network = "10.1.9.32/8".parse()?;
    /// assert!(network.is_supernet_of("10.1.0.0/16".parse()?));
    /// assert!(!network.is_supernet_of("11.0.0.0/16".parse()?));
    /// # Ok::<(), Box<dyn std::error::Error>>(())
    /// ```
    #[inline]
    #[must_use]
    pub const fn is_supernet_of(self, other: Self) -> bool {
        other.is_subnet_of(self)
    }

    /// Returns `true` if some address is in both networks. Host bits make no difference.
    ///
    /// Of two networks that overlap, one is a subnet of the other.
    ///
    /// # Examples
    ///
    /// ```
    /// use fosibegan::Ipv4Network;
    ///
    /// let network: Ipv4Network = "10.1.0.0/16".parse()?;
    /// assert!(network.overlaps("10.0.0.0/8".parse()?));
    /// assert!(network.overlaps("10.1.2.0/24".parse()?));
    /// assert!(!network.overlaps("10.2.0.0/16".parse()?));
    /// # Ok::<(), Box<dyn std::error::Error>>(())
    /// ```
    #[inline]
    #[must_use]
    pub const fn overlaps(self, other: Self) -> bool {
        let wider = if self.prefix() < other.prefix() {
            self
        } else {
            other
        };
        wider.contains(self.ip()) & wider.contains(other.ip())
    }

    /// Returns the network with its host bits cleared: the same addresses, under the network's
    /// first address.
    ///
    /// # Examples
    ///
    /// ```
    /// use fosibegan::Ipv4Network;
    ///
    /// let network: Ipv4Network = "192.0.2.77/26".parse()?;
    /// assert_eq!(network.block(), "192.0.2.64/26".parse()?);
    /// # Ok::<(), Box<dyn std::error::Error>>(())
    /// ```
    #[inline]
    #[must_use]
    pub const fn block(self) -> Self {
        self.with_ip(self.first())
    }

    /// Returns the network of this prefix length that contains this one, with its host bits
    /// cleared, or `None` if `prefix` is longer than the network's own prefix length.
    ///
    /// # Examples
    ///
    /// ```
    /// use fosibegan::Ipv4Network;
    ///
    /// let network: Ipv4Network = "192.0.2.77/26".parse()?;
    /// assert_eq!(network.supernet(24), Some("192.0.2.0/24".parse()?));
    /// assert_eq!(network.supernet(26), Some("192.0.2.64/26".parse()?));
    /// assert_eq!(network.supernet(27), None);
    /// # Ok::<(), Box<dyn std::error::Error>>(())
    /// ```
    #[inline]
    #[must_use]
    pub const fn supernet(self, prefix: u8) -> Option<Self> {
        if prefix > self.prefix() {
            return None;
        }
        match Self::new_checked(self.ip(), prefix) {
            Some(network) => Some(network.block()),
            None => None,
        }
    }

    /// Returns an iterator over the networks of this prefix length that are in this one, in
    /// ascending order, or `None` if `prefix` is shorter than the network's own prefix length or
    /// greater than 32.
    ///
    /// The host bits of this network make no difference, and those of the subnets are cleared.
    ///
    /// # Examples
    ///
    /// ```
    /// use fosibegan::Ipv4Network;
    ///
    /// let network: Ipv4Network = "10.0.0.0/8".parse()?;
    /// let subnets = network.subnets(16).unwrap();
    /// assert_eq!(subnets.clone().count(), 256);
    /// assert_eq!(subnets.last(), Some("10.255.0.0/16".parse()?));
    /// assert!(network.subnets(7).is_none());
    /// # Ok::<(), Box<dyn std::error::Error>>(())
    /// ```
    #[must_use]
    pub fn subnets(self, prefix: u8) -> Option<Subnets<Self>> {
        Subnets::new(self, prefix)
    }

    /// Returns the network of the same prefix length that begins right after the last address of
    /// this one, or `None` if there is no address after it.
    ///
    /// The host bits of the answer are cleared.
    ///
    /// # Examples
    ///
    /// ```
    /// use fosibegan::Ipv4Network;
    ///
    /// let network: Ipv4Network = "192.0.2.77/26".parse()?;
    /// assert_eq!(network.next(), Some("192.0.2.128/26".parse()?));
    /// let last: Ipv4Network = "255.0.0.0/8".parse()?;
    /// assert_eq!(last.next(), None);
    /// # Ok::<(), Box<dyn std::error::Error>>(())
    /// ```
    #[inline]
    #[must_use]
    pub const fn next(self) -> Option<Self> {
        match self.last().checked_add(1) {
            Some(first) => Some(self.with_ip(first)),
            None => None,
        }
    }

    /// Returns the network of the same prefix length that ends right before the first address of
    /// this one, or `None` if there is no address before it.
    ///
    /// The host bits of the answer are cleared.
    ///
    /// # Examples
    ///
    /// ```
    /// use fosibegan::Ipv4Network;
    ///
    /// let network: Ipv4Network = "192.0.2.77/26".parse()?;
    /// assert_eq!(network.previous(), Some("192.0.2.0/26".parse()?));
    /// let first: Ipv4Network = "0.0.0.0/8".parse()?;
    /// assert_eq!(first.previous(), None);
    /// # Ok::<(), Box<dyn std::error::Error>>(())
    /// ```
    #[inline]
    #[must_use]
    pub const fn previous(self) -> Option<Self> {
        match self.first().checked_sub(1) {
            Some(last) => Some(self.with_ip(last).block()),
            None => None,
        }
    }

    /// Returns an iterator over the addresses that hosts of this network can have, in ascending
    /// order.
    ///
    /// Up to prefix length 30 these are all addresses but the first, which stands for the network,
    /// and the last, which is the broadcast address. A network of prefix length 31 has two hosts,
    /// and one of prefix length 32 has one.
    ///
    /// # Examples
    ///
    /// ```
    /// use fosibegan::Ipv4Network;
    /// use std::net::Ipv4Addr;
    ///
    /// let network: Ipv4Network = "192.0.2.64/26".parse()?;
    /// let mut hosts = network.hosts();
    /// assert_eq!(hosts.next(), Some(Ipv4Addr::new(192, 0, 2, 65)));
    /// assert_eq!(hosts.last(), Some(Ipv4Addr::new(192, 0, 2, 126)));
    /// # Ok::<(), Box<dyn std::error::Error>>(())
    /// ```
    pub fn hosts(self) -> Hosts<Self> {
        Hosts::new(self)
    }

    /// Returns an iterator over the fewest networks that contain exactly the addresses of this
    /// network that are not in `other`, in ascending order.
    ///
    /// If the two have no address in common, that is this network with its host bits cleared. If
    /// `other` contains this network, nothing is left. Otherwise it is one network of each prefix
    /// length that is longer than this network's and not longer than that of `other`.
    ///
    /// # Examples
    ///
    /// ```
    /// use fosibegan::Ipv4Network;
    ///
    /// let network: Ipv4Network = "10.0.0.0/8".parse()?;
    /// let left: Vec<String> =
    ///     network.exclude("10.64.0.0/10".parse()?).map(|each| each.to_string()).collect();
    /// assert_eq!(left, ["10.0.0.0/10", "10.128.0.0/9"]);
    /// # Ok::<(), Box<dyn std::error::Error>>(())
    /// ```
    pub fn exclude(self, other: Self) -> Exclude<Self> {
        Exclude::new(self, other)
    }

    /// Returns an iterator over the fewest networks that contain exactly the addresses of a range,
    /// in ascending order.
    ///
    /// There are at most 62 of them, and none if the range is empty. So a range whose ends are in
    /// the wrong order gives no networks.
    ///
    /// # Examples
    ///
    /// ```
    /// use fosibegan::Ipv4Network;
    /// use std::net::Ipv4Addr;
    ///
    /// let range = Ipv4Addr::new(192, 0, 2, 1)..=Ipv4Addr::new(192, 0, 2, 4);
    /// let networks: Vec<String> =
    ///     Ipv4Network::summarize(range).map(|each| each.to_string()).collect();
    /// assert_eq!(networks, ["192.0.2.1/32", "192.0.2.2/31", "192.0.2.4/32"]);
    /// ```
    pub fn summarize(range: RangeInclusive<Ipv4Addr>) -> Summarize<Self> {
        Summarize::of_v4(&range)
    }

    /// Returns the fewest networks that contain exactly the addresses of all these networks, in
    /// ascending order and with their host bits cleared.
    ///
    /// Networks that lie in others are left out, and neighbours that fill a larger network are
    /// joined. The networks are taken by value: for those of a list that is kept, pass
    /// `list.iter().copied()`. Takes time *O*(*n* log *n*).
    ///
    /// # Examples
    ///
    /// ```
    /// use fosibegan::Ipv4Network;
    ///
    /// let networks: Vec<Ipv4Network> =
    ///     vec!["10.128.0.0/9".parse()?, "10.1.9.32/16".parse()?, "10.0.0.0/9".parse()?];
    /// assert_eq!(Ipv4Network::aggregate(networks), ["10.0.0.0/8".parse()?]);
    /// # Ok::<(), Box<dyn std::error::Error>>(())
    /// ```
    #[must_use]
    pub fn aggregate(networks: impl IntoIterator<Item = Self>) -> Vec<Self> {
        let networks = networks.into_iter().map(Self::asked).collect();
        together::aggregate(networks)
            .into_iter()
            .map(Self::from_core)
            .collect()
    }

    /// Returns the smallest network that contains all these networks, or `None` if there are none.
    ///
    /// It may contain many other addresses: the smallest network around `0.0.0.0/32` and
    /// `255.255.255.255/32` is `0.0.0.0/0`.
    ///
    /// # Examples
    ///
    /// ```
    /// use fosibegan::Ipv4Network;
    ///
    /// let networks: [Ipv4Network; 2] = ["10.0.1.0/24".parse()?, "10.0.2.128/25".parse()?];
    /// assert_eq!(Ipv4Network::spanning(networks), Some("10.0.0.0/22".parse()?));
    /// assert_eq!(Ipv4Network::spanning([]), None);
    /// # Ok::<(), Box<dyn std::error::Error>>(())
    /// ```
    #[must_use]
    pub fn spanning(networks: impl IntoIterator<Item = Self>) -> Option<Self> {
        together::spanning(networks.into_iter().map(Self::asked)).map(Self::from_core)
    }
}
