//! The entry of one network, whether it has a value or not.

use super::parts::{Tables, block};
use super::slot::{OccupiedEntry, VacantEntry};
use crate::Network;
use core::fmt::{self, Debug, Formatter};

/// The entry of one network in a [`PrefixMap`](crate::PrefixMap): made by its method
/// [`entry`](crate::PrefixMap::entry).
///
/// # Examples
///
/// ```
/// use fosibegan::prefix_map::Entry;
/// use fosibegan::{IpNetwork, PrefixMap};
///
/// let mut map = PrefixMap::new();
/// map.insert("10.0.0.0/8".parse::<IpNetwork>()?, 1);
/// match map.entry("10.0.0.0/8".parse()?) {
///     Entry::Occupied(entry) => assert_eq!(entry.remove(), 1),
///     Entry::Vacant(_) => unreachable!(),
/// }
/// assert!(map.is_empty());
/// # Ok::<(), Box<dyn std::error::Error>>(())
/// ```
pub enum Entry<'a, N, V> {
    /// The network has a value.
    Occupied(OccupiedEntry<'a, N, V>),
    /// The network has no value.
    Vacant(VacantEntry<'a, N, V>),
}

impl<'a, N: Network, V> Entry<'a, N, V> {
    pub(super) fn of(parts: &'a mut Tables<N, V>, network: N) -> Self {
        let network = block(network);
        match parts.place_of(network) {
            Some(place) => Entry::Occupied(OccupiedEntry {
                network,
                parts,
                place,
            }),
            None => Entry::Vacant(VacantEntry { network, parts }),
        }
    }

    /// Inserts this value if the network has none, and returns a reference to the value of the
    /// entry.
    ///
    /// # Examples
    ///
    /// ```
    /// use fosibegan::PrefixMap;
    ///
    /// let mut map = PrefixMap::new();
    /// map.insert("10.0.0.0/8".parse()?, 1);
    /// *map.entry("10.0.0.0/8".parse()?).or_insert(5) += 1;
    /// *map.entry("10.1.0.0/16".parse()?).or_insert(5) += 1;
    /// assert_eq!(map.values().copied().collect::<Vec<i32>>(), [2, 6]);
    /// # Ok::<(), Box<dyn std::error::Error>>(())
    /// ```
    pub fn or_insert(self, value: V) -> &'a mut V {
        self.or_insert_with(|| value)
    }

    /// Inserts what the closure returns if the network has no value, and returns a reference to the
    /// value of the entry.
    ///
    /// # Examples
    ///
    /// ```
    /// use fosibegan::PrefixMap;
    ///
    /// let mut names = PrefixMap::new();
    /// names.entry("10.0.0.0/8".parse()?).or_insert_with(Vec::new).push("office");
    /// assert_eq!(names.get("10.0.0.0/8".parse()?), Some(&vec!["office"]));
    /// # Ok::<(), Box<dyn std::error::Error>>(())
    /// ```
    pub fn or_insert_with<F: FnOnce() -> V>(self, default: F) -> &'a mut V {
        match self {
            Entry::Occupied(entry) => entry.into_mut(),
            Entry::Vacant(entry) => entry.insert(default()),
        }
    }

    /// Inserts what the closure returns for the network if it has no value, and returns a reference
    /// to the value of the entry.
    ///
    /// # Examples
    ///
    /// ```
    /// use fosibegan::PrefixMap;
    ///
    /// let mut names = PrefixMap::new();
    /// names.entry("10.0.0.0/8".parse()?).or_insert_with_key(|network| format!("lan {network}"));
    /// assert_eq!(names.get("10.0.0.0/8".parse()?).map(String::as_str), Some("lan 10.0.0.0/8"));
    /// # Ok::<(), Box<dyn std::error::Error>>(())
    /// ```
    pub fn or_insert_with_key<F: FnOnce(N) -> V>(self, default: F) -> &'a mut V {
        match self {
            Entry::Occupied(entry) => entry.into_mut(),
            Entry::Vacant(entry) => {
                let value = default(entry.network);
                entry.insert(value)
            }
        }
    }

    /// Inserts the default value if the network has none, and returns a reference to the value of
    /// the entry.
    ///
    /// # Examples
    ///
    /// ```
    /// use fosibegan::PrefixMap;
    ///
    /// let mut counts: PrefixMap<_, u64> = PrefixMap::new();
    /// *counts.entry("10.0.0.0/8".parse()?).or_default() += 1;
    /// assert_eq!(counts.get("10.0.0.0/8".parse()?), Some(&1));
    /// # Ok::<(), Box<dyn std::error::Error>>(())
    /// ```
    pub fn or_default(self) -> &'a mut V
    where
        V: Default,
    {
        self.or_insert_with(V::default)
    }

    /// Changes the value by the closure if the network has one, and returns the entry.
    ///
    /// # Examples
    ///
    /// ```
    /// use fosibegan::PrefixMap;
    ///
    /// let mut map = PrefixMap::new();
    /// for _ in 0..3 {
    ///     map.entry("10.0.0.0/8".parse()?).and_modify(|count| *count += 1).or_insert(1);
    /// }
    /// assert_eq!(map.get("10.0.0.0/8".parse()?), Some(&3));
    /// # Ok::<(), Box<dyn std::error::Error>>(())
    /// ```
    #[must_use]
    pub fn and_modify<F: FnOnce(&mut V)>(mut self, change: F) -> Self {
        if let Entry::Occupied(entry) = &mut self {
            change(entry.get_mut());
        }
        self
    }

    /// Returns the network of the entry, with its host bits cleared.
    ///
    /// # Examples
    ///
    /// ```
    /// use fosibegan::{IpNetwork, PrefixMap};
    ///
    /// let mut map: PrefixMap<IpNetwork, u8> = PrefixMap::new();
    /// assert_eq!(map.entry("10.1.2.3/8".parse()?).key().to_string(), "10.0.0.0/8");
    /// # Ok::<(), Box<dyn std::error::Error>>(())
    /// ```
    pub fn key(&self) -> N {
        match self {
            Entry::Occupied(entry) => entry.network,
            Entry::Vacant(entry) => entry.network,
        }
    }
}

impl<N: Network, V: Debug> Debug for Entry<'_, N, V> {
    fn fmt(&self, f: &mut Formatter<'_>) -> fmt::Result {
        match self {
            Entry::Occupied(entry) => f.debug_tuple("Entry").field(entry).finish(),
            Entry::Vacant(entry) => f.debug_tuple("Entry").field(entry).finish(),
        }
    }
}
