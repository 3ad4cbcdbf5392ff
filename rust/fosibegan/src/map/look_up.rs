//! What a map answers.

use super::{CoveredBy, Covering, Iter, Keys, PrefixMap, Values};
use crate::{IpNetwork, Network};
use core::net::IpAddr;

impl<N: Network, V> PrefixMap<N, V> {
    /// Returns the value of exactly this network.
    ///
    /// Host bits are cleared first. For the value that holds for an address, see
    /// [`longest_match`](Self::longest_match).
    ///
    /// # Examples
    ///
    /// ```
    /// use fosibegan::PrefixMap;
    ///
    /// let mut map = PrefixMap::new();
    /// map.insert("10.0.0.0/8".parse()?, 1);
    /// assert_eq!(map.get("10.0.0.0/8".parse()?), Some(&1));
    /// assert_eq!(map.get("10.1.2.3/8".parse()?), Some(&1));
    /// assert_eq!(map.get("10.0.0.0/9".parse()?), None);
    /// # Ok::<(), Box<dyn std::error::Error>>(())
    /// ```
    #[inline]
    #[must_use]
    pub fn get(&self, network: N) -> Option<&V> {
        self.parts.get(network)
    }

    /// Returns the value of exactly this network, to be changed.
    ///
    /// # Examples
    ///
    /// ```
    /// use fosibegan::PrefixMap;
    ///
    /// let mut map = PrefixMap::new();
    /// map.insert("10.0.0.0/8".parse()?, 1);
    /// if let Some(value) = map.get_mut("10.0.0.0/8".parse()?) {
    ///     *value += 1;
    /// }
    /// assert_eq!(map.get("10.0.0.0/8".parse()?), Some(&2));
    /// # Ok::<(), Box<dyn std::error::Error>>(())
    /// ```
    #[inline]
    pub fn get_mut(&mut self, network: N) -> Option<&mut V> {
        self.parts.get_mut(network)
    }

    /// Returns `true` if exactly this network is in the map.
    ///
    /// # Examples
    ///
    /// ```
    /// use fosibegan::PrefixMap;
    ///
    /// let mut map = PrefixMap::new();
    /// map.insert("10.0.0.0/8".parse()?, 1);
    /// assert!(map.contains_key("10.0.0.0/8".parse()?));
    /// assert!(!map.contains_key("10.1.0.0/16".parse()?));
    /// # Ok::<(), Box<dyn std::error::Error>>(())
    /// ```
    #[inline]
    #[must_use]
    pub fn contains_key(&self, network: N) -> bool {
        self.parts.place_of(network).is_some()
    }

    /// Returns the longest network in the map that contains the address, and its value: the route
    /// that a router takes.
    ///
    /// An address of one family is in no network of the other. Pass `addr.to_canonical()` if the
    /// address may be an IPv4-mapped one, as those of clients are on a socket of both families.
    ///
    /// # Examples
    ///
    /// ```
    /// use fosibegan::PrefixMap;
    /// use std::net::IpAddr;
    ///
    /// let mut map = PrefixMap::new();
    /// map.insert("10.0.0.0/8".parse()?, "office");
    /// map.insert("10.1.0.0/16".parse()?, "laboratory");
    ///
    /// let addr: IpAddr = "10.1.2.3".parse()?;
    /// let found = map.longest_match(addr.to_canonical());
    /// assert_eq!(found, Some(("10.1.0.0/16".parse()?, &"laboratory")));
    /// assert_eq!(map.longest_match("11.0.0.0".parse()?), None);
    /// # Ok::<(), Box<dyn std::error::Error>>(())
    /// ```
    #[inline]
    #[must_use]
    pub fn longest_match(&self, addr: N::Addr) -> Option<(N, &V)> {
        self.parts.longest_match(addr)
    }

    /// Returns the longest network in the map that contains the address, and its value, to be
    /// changed.
    ///
    /// # Examples
    ///
    /// ```
    /// use fosibegan::PrefixMap;
    /// use std::net::IpAddr;
    ///
    /// let mut hits = PrefixMap::new();
    /// hits.insert("10.0.0.0/8".parse()?, 0);
    ///
    /// let addr: IpAddr = "10.1.2.3".parse()?;
    /// if let Some((_, count)) = hits.longest_match_mut(addr.to_canonical()) {
    ///     *count += 1;
    /// }
    /// assert_eq!(hits.get("10.0.0.0/8".parse()?), Some(&1));
    /// # Ok::<(), Box<dyn std::error::Error>>(())
    /// ```
    #[inline]
    pub fn longest_match_mut(&mut self, addr: N::Addr) -> Option<(N, &mut V)> {
        self.parts.longest_match_mut(addr)
    }

    /// Returns an iterator over the networks in the map that contain a network or an address, with
    /// their values: the shortest first.
    ///
    /// The network itself is among them if the map has it. Each step searches the map for one
    /// prefix length that some key has, so reading only the first or the last one is cheap.
    ///
    /// # Examples
    ///
    /// ```
    /// use fosibegan::PrefixMap;
    /// use std::net::IpAddr;
    ///
    /// let mut map = PrefixMap::new();
    /// map.insert("10.0.0.0/8".parse()?, 1);
    /// map.insert("10.1.0.0/16".parse()?, 2);
    /// map.insert("10.2.0.0/16".parse()?, 3);
    ///
    /// let addr: IpAddr = "10.1.2.3".parse()?;
    /// let values: Vec<i32> = map.covering(addr).map(|(_, value)| *value).collect();
    /// assert_eq!(values, [1, 2]);
    /// # Ok::<(), Box<dyn std::error::Error>>(())
    /// ```
    pub fn covering(&self, network: impl Into<N>) -> Covering<'_, N, V> {
        Covering {
            inner: self.parts.covering(network.into()),
        }
    }

    /// Returns an iterator over the networks in the map that a network contains, with their values,
    /// in order.
    ///
    /// The network itself is the first if the map has it. The other entries of the map are not
    /// visited.
    ///
    /// # Examples
    ///
    /// ```
    /// use fosibegan::PrefixMap;
    ///
    /// let mut map = PrefixMap::new();
    /// map.insert("10.0.0.0/8".parse()?, 1);
    /// map.insert("10.1.0.0/16".parse()?, 2);
    /// map.insert("10.1.9.0/24".parse()?, 3);
    /// map.insert("10.2.0.0/16".parse()?, 4);
    ///
    /// let laboratory = map.covered_by("10.1.0.0/16".parse()?);
    /// assert_eq!(laboratory.map(|(_, value)| *value).collect::<Vec<i32>>(), [2, 3]);
    /// # Ok::<(), Box<dyn std::error::Error>>(())
    /// ```
    pub fn covered_by(&self, network: N) -> CoveredBy<'_, N, V> {
        CoveredBy {
            inner: self.parts.covered_by(network),
        }
    }

    /// Returns the first network in order, and its value.
    ///
    /// # Examples
    ///
    /// ```
    /// use fosibegan::PrefixMap;
    ///
    /// let mut map = PrefixMap::new();
    /// map.insert("10.1.0.0/16".parse()?, 2);
    /// map.insert("10.0.0.0/8".parse()?, 1);
    /// assert_eq!(map.first_key_value(), Some(("10.0.0.0/8".parse()?, &1)));
    /// # Ok::<(), Box<dyn std::error::Error>>(())
    /// ```
    #[must_use]
    pub fn first_key_value(&self) -> Option<(N, &V)> {
        self.iter().next()
    }

    /// Returns the last network in order, and its value.
    ///
    /// # Examples
    ///
    /// ```
    /// use fosibegan::PrefixMap;
    ///
    /// let mut map = PrefixMap::new();
    /// map.insert("10.1.0.0/16".parse()?, 2);
    /// map.insert("10.0.0.0/8".parse()?, 1);
    /// assert_eq!(map.last_key_value(), Some(("10.1.0.0/16".parse()?, &2)));
    /// # Ok::<(), Box<dyn std::error::Error>>(())
    /// ```
    #[must_use]
    pub fn last_key_value(&self) -> Option<(N, &V)> {
        self.iter().next_back()
    }

    /// Returns an iterator over the networks and their values, in order: IPv4 before IPv6, lower
    /// addresses first, and a network before the smaller networks that it contains.
    ///
    /// # Examples
    ///
    /// ```
    /// use fosibegan::PrefixMap;
    ///
    /// let mut map = PrefixMap::new();
    /// map.insert("2001:db8::/32".parse()?, 3);
    /// map.insert("10.1.0.0/16".parse()?, 2);
    /// map.insert("10.0.0.0/8".parse()?, 1);
    ///
    /// let mut entries = map.iter();
    /// assert_eq!(entries.next(), Some(("10.0.0.0/8".parse()?, &1)));
    /// assert_eq!(entries.next(), Some(("10.1.0.0/16".parse()?, &2)));
    /// assert_eq!(entries.next(), Some(("2001:db8::/32".parse()?, &3)));
    /// assert_eq!(entries.next(), None);
    /// # Ok::<(), Box<dyn std::error::Error>>(())
    /// ```
    pub fn iter(&self) -> Iter<'_, N, V> {
        Iter {
            inner: self.parts.iter(),
        }
    }

    /// Returns an iterator over the networks, in order.
    ///
    /// # Examples
    ///
    /// ```
    /// use fosibegan::PrefixMap;
    ///
    /// let mut map = PrefixMap::new();
    /// map.insert("10.1.0.0/16".parse()?, 2);
    /// map.insert("10.0.0.0/8".parse()?, 1);
    ///
    /// let texts: Vec<String> = map.keys().map(|network| network.to_string()).collect();
    /// assert_eq!(texts, ["10.0.0.0/8", "10.1.0.0/16"]);
    /// # Ok::<(), Box<dyn std::error::Error>>(())
    /// ```
    pub fn keys(&self) -> Keys<'_, N, V> {
        Keys {
            inner: self.parts.iter(),
        }
    }

    /// Returns an iterator over the values, in the order of their networks.
    ///
    /// # Examples
    ///
    /// ```
    /// use fosibegan::PrefixMap;
    ///
    /// let mut map = PrefixMap::new();
    /// map.insert("10.1.0.0/16".parse()?, 2);
    /// map.insert("10.0.0.0/8".parse()?, 1);
    /// assert_eq!(map.values().copied().collect::<Vec<i32>>(), [1, 2]);
    /// # Ok::<(), Box<dyn std::error::Error>>(())
    /// ```
    pub fn values(&self) -> Values<'_, N, V> {
        Values {
            inner: self.parts.iter(),
        }
    }
}

impl<V> PrefixMap<IpNetwork, V> {
    /// Returns the longest match of an address that may be an IPv4-mapped IPv6 address.
    ///
    /// For such an address (`::ffff:10.1.2.3`) it is the longest match of the IPv4 address, or, if
    /// there is none, that of the IPv6 address itself. For every other address it is that of
    /// [`longest_match`](Self::longest_match).
    ///
    /// # Examples
    ///
    /// ```
    /// use fosibegan::PrefixMap;
    ///
    /// let mut map = PrefixMap::new();
    /// map.insert("::/0".parse()?, "any");
    /// let found = map.longest_match_mapped("::ffff:10.1.2.3".parse()?);
    /// assert_eq!(found, Some(("::/0".parse()?, &"any")));
    ///
    /// map.insert("10.0.0.0/8".parse()?, "office");
    /// let found = map.longest_match_mapped("::ffff:10.1.2.3".parse()?);
    /// assert_eq!(found, Some(("10.0.0.0/8".parse()?, &"office")));
    /// # Ok::<(), Box<dyn std::error::Error>>(())
    /// ```
    #[inline]
    #[must_use]
    pub fn longest_match_mapped(&self, addr: IpAddr) -> Option<(IpNetwork, &V)> {
        self.parts.longest_match_mapped(addr)
    }
}
