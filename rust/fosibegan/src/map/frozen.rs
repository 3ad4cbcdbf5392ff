//! Maps that do not change, and answer faster.

use super::parts::Indexes;
use super::{CoveredBy, Covering, Iter, IterMut, Keys, PrefixMap, Values, ValuesMut};
use crate::{IpNetwork, Network};
use core::net::IpAddr;

/// A [`PrefixMap`] whose networks do not change, and which finds the longest match of an address
/// faster: in a few steps for most addresses, and in as many as a binary search needs for any.
///
/// It is made by [`PrefixMap::freeze`], or by collecting an iterator, and
/// [`into_map`](Self::into_map) turns it back. Values can be changed in place; to add or remove
/// networks, turn it back, or build a new one and replace the old one.
///
/// ```
/// use fosibegan::{FrozenMap, IpNetwork};
/// use std::net::IpAddr;
///
/// let routes: FrozenMap<IpNetwork, &str> =
///     [("10.0.0.0/8".parse()?, "office"), ("10.1.0.0/16".parse()?, "laboratory")].into();
///
/// let client: IpAddr = "::ffff:10.1.2.3".parse()?;
/// let found = routes.longest_match(client.to_canonical());
/// assert_eq!(found, Some(("10.1.0.0/16".parse()?, &"laboratory")));
/// # Ok::<(), Box<dyn std::error::Error>>(())
/// ```
///
/// As in a [`PrefixMap`], an IPv4-mapped address such as `::ffff:10.1.2.3` is an IPv6 address: pass
/// `addr.to_canonical()`, or use [`longest_match_mapped`](Self::longest_match_mapped).
///
/// # Memory
///
/// In addition to the memory that the map had before, a frozen map takes up to 50 bytes for each
/// IPv4 network and up to 90 bytes for each IPv6 network. To clone a map means to build all of it
/// again: share a frozen map by [`Arc`](alloc::sync::Arc).
pub struct FrozenMap<N, V> {
    pub(super) parts: Indexes<N, V>,
}

impl<N, V> Default for FrozenMap<N, V> {
    /// Makes an empty map.
    fn default() -> Self {
        FrozenMap {
            parts: Indexes::new(),
        }
    }
}

impl<N, V> FrozenMap<N, V> {
    /// Returns the number of networks in the map.
    ///
    /// # Examples
    ///
    /// ```
    /// use fosibegan::{FrozenMap, Ipv4Network};
    ///
    /// let map: FrozenMap<Ipv4Network, i32> = [("10.0.0.0/8".parse()?, 1)].into();
    /// assert_eq!(map.len(), 1);
    /// # Ok::<(), Box<dyn std::error::Error>>(())
    /// ```
    #[inline]
    #[must_use]
    pub fn len(&self) -> usize {
        self.parts.len()
    }

    /// Returns `true` if the map has no networks.
    ///
    /// # Examples
    ///
    /// ```
    /// use fosibegan::{FrozenMap, Ipv4Network};
    ///
    /// assert!(FrozenMap::<Ipv4Network, i32>::default().is_empty());
    /// ```
    #[inline]
    #[must_use]
    pub fn is_empty(&self) -> bool {
        self.len() == 0
    }
}

impl<N: Network, V> FrozenMap<N, V> {
    /// Returns the longest network in the map that contains the address, and its value.
    ///
    /// Pass `addr.to_canonical()` if the address may be an IPv4-mapped one.
    ///
    /// # Examples
    ///
    /// ```
    /// use fosibegan::{FrozenMap, IpNetwork};
    /// use std::net::IpAddr;
    ///
    /// let map: FrozenMap<IpNetwork, i32> =
    ///     [("10.0.0.0/8".parse()?, 1), ("10.1.0.0/16".parse()?, 2)].into();
    ///
    /// let addr: IpAddr = "10.1.2.3".parse()?;
    /// assert_eq!(map.longest_match(addr.to_canonical()), Some(("10.1.0.0/16".parse()?, &2)));
    /// assert_eq!(map.longest_match("11.0.0.0".parse()?), None);
    /// # Ok::<(), Box<dyn std::error::Error>>(())
    /// ```
    #[inline]
    #[must_use]
    pub fn longest_match(&self, addr: N::Addr) -> Option<(N, &V)> {
        self.parts.longest_match(addr)
    }

    /// Returns the longest network in the map that contains the address, and its value, to be
    /// changed.
    ///
    /// # Examples
    ///
    /// ```
    /// use fosibegan::{FrozenMap, Ipv4Network};
    ///
    /// let mut hits: FrozenMap<Ipv4Network, u64> = [("10.0.0.0/8".parse()?, 0)].into();
    /// if let Some((_, count)) = hits.longest_match_mut("10.1.2.3".parse()?) {
    ///     *count += 1;
    /// }
    /// assert_eq!(hits.get("10.0.0.0/8".parse()?), Some(&1));
    /// # Ok::<(), Box<dyn std::error::Error>>(())
    /// ```
    #[inline]
    pub fn longest_match_mut(&mut self, addr: N::Addr) -> Option<(N, &mut V)> {
        self.parts.longest_match_mut(addr)
    }

    /// Writes the longest match of each address to the same position of `answers`.
    ///
    /// # Panics
    ///
    /// Panics if there are not as many answers as addresses.
    ///
    /// # Examples
    ///
    /// ```
    /// use fosibegan::{FrozenMap, Ipv4Network};
    ///
    /// let map: FrozenMap<Ipv4Network, i32> = [("10.0.0.0/8".parse()?, 1)].into();
    /// let addrs = ["10.1.2.3".parse()?, "11.0.0.0".parse()?];
    /// let mut answers = [None; 2];
    /// map.longest_each(&addrs, &mut answers);
    /// assert_eq!(answers, [Some(("10.0.0.0/8".parse()?, &1)), None]);
    /// # Ok::<(), Box<dyn std::error::Error>>(())
    /// ```
    pub fn longest_each<'a>(&'a self, addrs: &[N::Addr], answers: &mut [Option<(N, &'a V)>]) {
        assert_eq!(
            addrs.len(),
            answers.len(),
            "there must be as many answers as addresses"
        );
        for (addr, answer) in addrs.iter().zip(answers) {
            *answer = self.longest_match(*addr);
        }
    }

    /// Returns the value of exactly this network.
    ///
    /// # Examples
    ///
    /// ```
    /// use fosibegan::{FrozenMap, Ipv4Network};
    ///
    /// let map: FrozenMap<Ipv4Network, i32> = [("10.0.0.0/8".parse()?, 1)].into();
    /// assert_eq!(map.get("10.0.0.0/8".parse()?), Some(&1));
    /// assert_eq!(map.get("10.1.0.0/16".parse()?), None);
    /// # Ok::<(), Box<dyn std::error::Error>>(())
    /// ```
    #[inline]
    #[must_use]
    pub fn get(&self, network: N) -> Option<&V> {
        self.parts.get(network)
    }

    /// Returns the value of exactly this network, to be changed.
    ///
    /// # Examples
    ///
    /// ```
    /// use fosibegan::{FrozenMap, Ipv4Network};
    ///
    /// let mut map: FrozenMap<Ipv4Network, i32> = [("10.0.0.0/8".parse()?, 1)].into();
    /// if let Some(value) = map.get_mut("10.0.0.0/8".parse()?) {
    ///     *value = 2;
    /// }
    /// assert_eq!(map.get("10.0.0.0/8".parse()?), Some(&2));
    /// # Ok::<(), Box<dyn std::error::Error>>(())
    /// ```
    #[inline]
    pub fn get_mut(&mut self, network: N) -> Option<&mut V> {
        self.parts.get_mut(network)
    }

    /// Returns `true` if exactly this network is in the map.
    ///
    /// # Examples
    ///
    /// ```
    /// use fosibegan::{FrozenMap, Ipv4Network};
    ///
    /// let map: FrozenMap<Ipv4Network, i32> = [("10.0.0.0/8".parse()?, 1)].into();
    /// assert!(map.contains_key("10.0.0.0/8".parse()?));
    /// assert!(!map.contains_key("10.1.0.0/16".parse()?));
    /// # Ok::<(), Box<dyn std::error::Error>>(())
    /// ```
    #[inline]
    #[must_use]
    pub fn contains_key(&self, network: N) -> bool {
        self.parts.place_of(network).is_some()
    }

    /// Returns an iterator over the networks in the map that contain a network or an address, with
    /// their values: the shortest first. It is that of [`PrefixMap::covering`].
    ///
    /// # Examples
    ///
    /// ```
    /// use fosibegan::{FrozenMap, Ipv4Network};
    ///
    /// let map: FrozenMap<Ipv4Network, i32> =
    ///     [("10.0.0.0/8".parse()?, 1), ("10.1.0.0/16".parse()?, 2)].into();
    /// let network: Ipv4Network = "10.1.9.0/24".parse()?;
    /// let values: Vec<i32> = map.covering(network).map(|(_, value)| *value).collect();
    /// assert_eq!(values, [1, 2]);
    /// # Ok::<(), Box<dyn std::error::Error>>(())
    /// ```
    pub fn covering(&self, network: impl Into<N>) -> Covering<'_, N, V> {
        Covering {
            inner: self.parts.covering(network.into()),
        }
    }

    /// Returns an iterator over the networks in the map that a network contains, with their values,
    /// in order. It is that of [`PrefixMap::covered_by`].
    ///
    /// # Examples
    ///
    /// ```
    /// use fosibegan::{FrozenMap, Ipv4Network};
    ///
    /// let map: FrozenMap<Ipv4Network, i32> =
    ///     [("10.0.0.0/8".parse()?, 1), ("10.1.0.0/16".parse()?, 2)].into();
    /// let mut within = map.covered_by("10.0.0.0/9".parse()?);
    /// assert_eq!(within.next(), Some(("10.1.0.0/16".parse()?, &2)));
    /// assert_eq!(within.next(), None);
    /// # Ok::<(), Box<dyn std::error::Error>>(())
    /// ```
    pub fn covered_by(&self, network: N) -> CoveredBy<'_, N, V> {
        CoveredBy {
            inner: self.parts.covered_by(network),
        }
    }

    /// Returns an iterator over the networks and their values, in the order of [`PrefixMap::iter`].
    ///
    /// # Examples
    ///
    /// ```
    /// use fosibegan::{FrozenMap, Ipv4Network};
    ///
    /// let map: FrozenMap<Ipv4Network, i32> = [("10.0.0.0/8".parse()?, 1)].into();
    /// assert_eq!(map.iter().next(), Some(("10.0.0.0/8".parse()?, &1)));
    /// # Ok::<(), Box<dyn std::error::Error>>(())
    /// ```
    pub fn iter(&self) -> Iter<'_, N, V> {
        Iter {
            inner: self.parts.iter(),
        }
    }

    /// Returns an iterator over the networks and their values, in order, to change the values.
    ///
    /// # Examples
    ///
    /// ```
    /// use fosibegan::{FrozenMap, Ipv4Network};
    ///
    /// let mut map: FrozenMap<Ipv4Network, i32> = [("10.0.0.0/8".parse()?, 1)].into();
    /// for (_, value) in map.iter_mut() {
    ///     *value += 1;
    /// }
    /// assert_eq!(map.get("10.0.0.0/8".parse()?), Some(&2));
    /// # Ok::<(), Box<dyn std::error::Error>>(())
    /// ```
    pub fn iter_mut(&mut self) -> IterMut<'_, N, V> {
        IterMut {
            inner: self.parts.iter_mut(),
        }
    }

    /// Returns an iterator over the networks, in order.
    ///
    /// # Examples
    ///
    /// ```
    /// use fosibegan::{FrozenMap, Ipv4Network};
    ///
    /// let map: FrozenMap<Ipv4Network, i32> = [("10.0.0.0/8".parse()?, 1)].into();
    /// assert_eq!(map.keys().collect::<Vec<_>>(), ["10.0.0.0/8".parse()?]);
    /// # Ok::<(), Box<dyn std::error::Error>>(())
    /// ```
    pub fn keys(&self) -> Keys<'_, N, V> {
        Keys {
            inner: self.parts.iter(),
        }
    }

    /// Returns an iterator over the values, in the order of their networks.
    ///
    /// # Examples
    ///
    /// ```
    /// use fosibegan::{FrozenMap, Ipv4Network};
    ///
    /// let map: FrozenMap<Ipv4Network, i32> = [("10.0.0.0/8".parse()?, 1)].into();
    /// assert_eq!(map.values().sum::<i32>(), 1);
    /// # Ok::<(), Box<dyn std::error::Error>>(())
    /// ```
    pub fn values(&self) -> Values<'_, N, V> {
        Values {
            inner: self.parts.iter(),
        }
    }

    /// Returns an iterator over the values, in the order of their networks, to change them.
    ///
    /// # Examples
    ///
    /// ```
    /// use fosibegan::{FrozenMap, Ipv4Network};
    ///
    /// let mut hits: FrozenMap<Ipv4Network, u64> = [("10.0.0.0/8".parse()?, 5)].into();
    /// hits.values_mut().for_each(|count| *count = 0);
    /// assert_eq!(hits.get("10.0.0.0/8".parse()?), Some(&0));
    /// # Ok::<(), Box<dyn std::error::Error>>(())
    /// ```
    pub fn values_mut(&mut self) -> ValuesMut<'_, N, V> {
        ValuesMut {
            inner: self.parts.iter_mut(),
        }
    }

    /// Turns the map into one that networks can be added to and removed from. Nothing is copied.
    ///
    /// # Examples
    ///
    /// ```
    /// use fosibegan::{FrozenMap, Ipv4Network};
    ///
    /// let frozen: FrozenMap<Ipv4Network, i32> = [("10.0.0.0/8".parse()?, 1)].into();
    /// let mut map = frozen.into_map();
    /// assert_eq!(map.remove("10.0.0.0/8".parse()?), Some(1));
    /// # Ok::<(), Box<dyn std::error::Error>>(())
    /// ```
    #[must_use = "the map is consumed"]
    pub fn into_map(self) -> PrefixMap<N, V> {
        PrefixMap {
            parts: self.parts.thaw(),
        }
    }
}

impl<V> FrozenMap<IpNetwork, V> {
    /// Returns the longest match of an address that may be an IPv4-mapped IPv6 address.
    ///
    /// For such an address (`::ffff:10.1.2.3`) it is the longest match of the IPv4 address, or, if
    /// there is none, that of the IPv6 address itself. For every other address it is that of
    /// [`longest_match`](Self::longest_match).
    ///
    /// # Examples
    ///
    /// ```
    /// use fosibegan::{FrozenMap, IpNetwork};
    ///
    /// let map: FrozenMap<IpNetwork, i32> =
    ///     [("10.0.0.0/8".parse()?, 1), ("::/0".parse()?, 2)].into();
    /// let found = map.longest_match_mapped("::ffff:10.1.2.3".parse()?);
    /// assert_eq!(found, Some(("10.0.0.0/8".parse()?, &1)));
    /// let found = map.longest_match_mapped("::ffff:11.0.0.0".parse()?);
    /// assert_eq!(found, Some(("::/0".parse()?, &2)));
    /// # Ok::<(), Box<dyn std::error::Error>>(())
    /// ```
    #[inline]
    #[must_use]
    pub fn longest_match_mapped(&self, addr: IpAddr) -> Option<(IpNetwork, &V)> {
        self.parts.longest_match_mapped(addr)
    }
}
