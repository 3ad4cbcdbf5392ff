//! Maps from networks to values.

mod both;
mod change;
mod collect;
mod compare;
mod entry;
mod frozen;
mod into_iter;
mod iter;
mod iter_mut;
mod lengths;
mod look_up;
mod part;
mod part_iter;
mod parts;
#[cfg(feature = "proptest")]
mod proptest;
#[cfg(feature = "serde")]
mod serde;
mod slot;

pub use entry::Entry;
pub use frozen::FrozenMap;
pub use into_iter::{IntoIter, IntoKeys, IntoValues};
pub use iter::{CoveredBy, Covering, Iter, Keys, Values};
pub use iter_mut::{IterMut, ValuesMut};
pub use slot::{OccupiedEntry, VacantEntry};

use crate::IpNetwork;
use parts::Tables;

/// A map from networks to values, with longest-prefix match: it finds the most specific network
/// that contains an address.
///
/// ```
/// use fosibegan::PrefixMap;
/// use std::net::IpAddr;
///
/// let mut routes = PrefixMap::new();
/// routes.insert("10.0.0.0/8".parse()?, "office".to_string());
/// routes.insert("10.1.0.0/16".parse()?, "laboratory".to_string());
/// routes.insert("2001:db8::/32".parse()?, "office".to_string());
///
/// // A socket that listens for both families reports 10.1.2.3 as ::ffff:10.1.2.3.
/// let client: IpAddr = "::ffff:10.1.2.3".parse()?;
/// let (network, name) = routes.longest_match(client.to_canonical()).ok_or("no route")?;
/// assert_eq!(network.to_string(), "10.1.0.0/16");
/// assert_eq!(name, "laboratory");
/// # Ok::<(), Box<dyn std::error::Error>>(())
/// ```
///
/// # Keys
///
/// `N` is the type of the keys: [`IpNetwork`] for both families in one map, or
/// [`Ipv4Network`](crate::Ipv4Network) or [`Ipv6Network`](crate::Ipv6Network) for one family alone.
/// [`new`](Self::new) makes a map of both families, so no type has to be named; a map of one family
/// is made by `PrefixMap::<Ipv4Network, _>::default()` or by collecting an iterator.
///
/// A key is a block of addresses. The host bits of every network that is passed to a method are
/// cleared, so `10.1.2.3/8` and `10.0.0.0/8` are the same key, and the map returns the latter.
///
/// The order of a map is that of its keys: IPv4 before IPv6, lower addresses first, and a network
/// before the smaller networks that it contains.
///
/// # IPv4-mapped addresses
///
/// `::ffff:10.1.2.3` is an IPv6 address, so [`longest_match`](Self::longest_match) looks for it
/// among the IPv6 networks. Pass `addr.to_canonical()` to look for the IPv4 address instead, or use
/// [`longest_match_mapped`](Self::longest_match_mapped), which tries the IPv4 address first.
///
/// # Speed
///
/// [`get`](Self::get), [`insert`](Self::insert) and [`remove`](Self::remove) search trees: their
/// time grows with the logarithm of the number of keys. So does that of
/// [`longest_match`](Self::longest_match) for most addresses. But if the keys next to an address do
/// not contain it, there is a search for each shorter prefix length that some key has. IPv6 tables
/// may have more than a hundred of these: then such an address takes up to 24 times as long as in a
/// [`FrozenMap`]. If a map changes seldom, [`freeze`](Self::freeze) it.
///
/// The values are stored next to each other, apart from the trees. A map can have at most 2³²
/// networks of each family.
///
/// # Features
///
/// With the feature `serde`, a map is a list of pairs `[network, value]`. A list that has a network
/// twice is refused.
///
/// # Examples
///
/// Other questions than the longest match:
///
/// ```
/// use fosibegan::{Ipv4Network, PrefixMap};
///
/// let mut map: PrefixMap<Ipv4Network, u32> = PrefixMap::default();
/// map.insert("10.0.0.0/8".parse()?, 1);
/// map.insert("10.1.0.0/16".parse()?, 2);
/// map.insert("10.1.9.0/24".parse()?, 3);
///
/// assert_eq!(map.get("10.1.0.0/16".parse()?), Some(&2));
/// assert_eq!(map.get("10.1.0.0/17".parse()?), None);
///
/// let lab: Ipv4Network = "10.1.0.0/16".parse()?;
/// let around: Vec<u32> = map.covering(lab).map(|(_, value)| *value).collect();
/// assert_eq!(around, [1, 2]);
///
/// let within: Vec<u32> = map.covered_by(lab).map(|(_, value)| *value).collect();
/// assert_eq!(within, [2, 3]);
/// # Ok::<(), Box<dyn std::error::Error>>(())
/// ```
pub struct PrefixMap<N, V> {
    parts: Tables<N, V>,
}

impl<V> PrefixMap<IpNetwork, V> {
    /// Makes an empty map of networks of both families. Nothing is allocated.
    ///
    /// For a map of one family use [`default`](Default::default).
    ///
    /// # Examples
    ///
    /// ```
    /// use fosibegan::{Ipv6Network, PrefixMap};
    ///
    /// let mut map = PrefixMap::new();
    /// map.insert("2001:db8::/32".parse()?, "documentation");
    ///
    /// let mut of_ipv6 = PrefixMap::<Ipv6Network, _>::default();
    /// of_ipv6.insert("2001:db8::/32".parse()?, "documentation");
    /// # Ok::<(), Box<dyn std::error::Error>>(())
    /// ```
    #[must_use]
    pub const fn new() -> Self {
        PrefixMap {
            parts: Tables::new(),
        }
    }
}

impl<N, V> Default for PrefixMap<N, V> {
    /// Makes an empty map.
    fn default() -> Self {
        PrefixMap {
            parts: Tables::new(),
        }
    }
}

impl<N, V> PrefixMap<N, V> {
    /// Returns the number of networks in the map.
    ///
    /// # Examples
    ///
    /// ```
    /// use fosibegan::PrefixMap;
    ///
    /// let mut map = PrefixMap::new();
    /// map.insert("10.0.0.0/8".parse()?, 1);
    /// map.insert("2001:db8::/32".parse()?, 2);
    /// assert_eq!(map.len(), 2);
    /// # Ok::<(), Box<dyn std::error::Error>>(())
    /// ```
    #[inline]
    #[must_use]
    pub fn len(&self) -> usize {
        self.parts.len()
    }

    /// Returns `true` if the map has no networks.
    ///
    /// # Examples
    ///
    /// ```
    /// use fosibegan::PrefixMap;
    ///
    /// let mut map = PrefixMap::new();
    /// assert!(map.is_empty());
    /// map.insert("10.0.0.0/8".parse()?, 1);
    /// assert!(!map.is_empty());
    /// # Ok::<(), Box<dyn std::error::Error>>(())
    /// ```
    #[inline]
    #[must_use]
    pub fn is_empty(&self) -> bool {
        self.len() == 0
    }

    /// Removes all networks and their values.
    ///
    /// # Examples
    ///
    /// ```
    /// use fosibegan::PrefixMap;
    ///
    /// let mut map = PrefixMap::new();
    /// map.insert("10.0.0.0/8".parse()?, 1);
    /// map.clear();
    /// assert!(map.is_empty());
    /// # Ok::<(), Box<dyn std::error::Error>>(())
    /// ```
    pub fn clear(&mut self) {
        drop(core::mem::take(self));
    }
}
