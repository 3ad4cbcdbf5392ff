//! The two kinds of entries: of a network that has a value, and of one that has none.

use super::parts::{Place, Tables};
use crate::Network;
use core::fmt::{self, Debug, Formatter};
use core::mem;

/// The entry of a network that has a value. It is part of [`Entry`](crate::prefix_map::Entry).
///
/// # Examples
///
/// ```
/// use fosibegan::prefix_map::{Entry, OccupiedEntry};
/// use fosibegan::{IpNetwork, PrefixMap};
///
/// let mut map = PrefixMap::new();
/// map.insert("10.0.0.0/8".parse()?, 1);
/// map.insert("10.1.0.0/16".parse()?, 2);
///
/// if let Entry::Occupied(entry) = map.entry("10.0.0.0/8".parse()?) {
///     let entry: OccupiedEntry<'_, IpNetwork, i32> = entry;
///     assert_eq!(entry.remove(), 1);
/// }
/// assert_eq!(map.len(), 1);
/// # Ok::<(), Box<dyn std::error::Error>>(())
/// ```
pub struct OccupiedEntry<'a, N, V> {
    pub(super) network: N,
    pub(super) parts: &'a mut Tables<N, V>,
    pub(super) place: Place,
}

/// The entry of a network that has no value. It is part of [`Entry`](crate::prefix_map::Entry).
///
/// # Examples
///
/// ```
/// use fosibegan::prefix_map::{Entry, VacantEntry};
/// use fosibegan::{IpNetwork, PrefixMap};
///
/// let mut map = PrefixMap::new();
/// map.insert("10.0.0.0/8".parse()?, 1);
/// map.insert("10.1.0.0/16".parse()?, 2);
///
/// if let Entry::Vacant(entry) = map.entry("10.2.0.0/16".parse()?) {
///     let entry: VacantEntry<'_, IpNetwork, i32> = entry;
///     entry.insert(3);
/// }
/// assert_eq!(map.len(), 3);
/// # Ok::<(), Box<dyn std::error::Error>>(())
/// ```
pub struct VacantEntry<'a, N, V> {
    pub(super) network: N,
    pub(super) parts: &'a mut Tables<N, V>,
}

impl<'a, N: Network, V> OccupiedEntry<'a, N, V> {
    /// Returns the network of the entry, with its host bits cleared.
    ///
    /// # Examples
    ///
    /// ```
    /// use fosibegan::PrefixMap;
    /// use fosibegan::prefix_map::Entry;
    ///
    /// let mut map = PrefixMap::new();
    /// map.insert("10.0.0.0/8".parse()?, 1);
    /// if let Entry::Occupied(entry) = map.entry("10.1.2.3/8".parse()?) {
    ///     assert_eq!(entry.key().to_string(), "10.0.0.0/8");
    /// }
    /// # Ok::<(), Box<dyn std::error::Error>>(())
    /// ```
    pub fn key(&self) -> N {
        self.network
    }

    /// Returns a reference to the value.
    ///
    /// # Examples
    ///
    /// ```
    /// use fosibegan::PrefixMap;
    /// use fosibegan::prefix_map::Entry;
    ///
    /// let mut map = PrefixMap::new();
    /// map.insert("10.0.0.0/8".parse()?, 1);
    /// if let Entry::Occupied(entry) = map.entry("10.0.0.0/8".parse()?) {
    ///     assert_eq!(entry.get(), &1);
    /// }
    /// # Ok::<(), Box<dyn std::error::Error>>(())
    /// ```
    pub fn get(&self) -> &V {
        self.parts.at(self.place)
    }

    /// Returns a reference to the value, to change it. For a reference that lives as long as the
    /// borrow of the map, see [`into_mut`](Self::into_mut).
    ///
    /// # Examples
    ///
    /// ```
    /// use fosibegan::PrefixMap;
    /// use fosibegan::prefix_map::Entry;
    ///
    /// let mut map = PrefixMap::new();
    /// map.insert("10.0.0.0/8".parse()?, 1);
    /// if let Entry::Occupied(mut entry) = map.entry("10.0.0.0/8".parse()?) {
    ///     *entry.get_mut() += 1;
    ///     assert_eq!(entry.get(), &2);
    /// }
    /// # Ok::<(), Box<dyn std::error::Error>>(())
    /// ```
    pub fn get_mut(&mut self) -> &mut V {
        self.parts.at_mut(self.place)
    }

    /// Turns the entry into a reference to its value that lives as long as the borrow of the map.
    ///
    /// # Examples
    ///
    /// ```
    /// use fosibegan::PrefixMap;
    /// use fosibegan::prefix_map::Entry;
    ///
    /// let mut map = PrefixMap::new();
    /// map.insert("10.0.0.0/8".parse()?, 1);
    /// if let Entry::Occupied(entry) = map.entry("10.0.0.0/8".parse()?) {
    ///     *entry.into_mut() = 7;
    /// }
    /// assert_eq!(map.get("10.0.0.0/8".parse()?), Some(&7));
    /// # Ok::<(), Box<dyn std::error::Error>>(())
    /// ```
    #[must_use]
    pub fn into_mut(self) -> &'a mut V {
        self.parts.at_mut(self.place)
    }

    /// Sets the value, and returns the one that the entry had.
    ///
    /// # Examples
    ///
    /// ```
    /// use fosibegan::PrefixMap;
    /// use fosibegan::prefix_map::Entry;
    ///
    /// let mut map = PrefixMap::new();
    /// map.insert("10.0.0.0/8".parse()?, 1);
    /// if let Entry::Occupied(mut entry) = map.entry("10.0.0.0/8".parse()?) {
    ///     assert_eq!(entry.insert(2), 1);
    /// }
    /// assert_eq!(map.get("10.0.0.0/8".parse()?), Some(&2));
    /// # Ok::<(), Box<dyn std::error::Error>>(())
    /// ```
    pub fn insert(&mut self, value: V) -> V {
        mem::replace(self.get_mut(), value)
    }

    /// Removes the entry from the map, and returns its value.
    ///
    /// # Examples
    ///
    /// ```
    /// use fosibegan::PrefixMap;
    /// use fosibegan::prefix_map::Entry;
    ///
    /// let mut map = PrefixMap::new();
    /// map.insert("10.0.0.0/8".parse()?, 1);
    /// if let Entry::Occupied(entry) = map.entry("10.0.0.0/8".parse()?) {
    ///     assert_eq!(entry.remove(), 1);
    /// }
    /// assert!(map.is_empty());
    /// # Ok::<(), Box<dyn std::error::Error>>(())
    /// ```
    pub fn remove(self) -> V {
        self.remove_entry().1
    }

    /// Removes the entry from the map, and returns its network and its value.
    ///
    /// # Examples
    ///
    /// ```
    /// use fosibegan::PrefixMap;
    /// use fosibegan::prefix_map::Entry;
    ///
    /// let mut map = PrefixMap::new();
    /// map.insert("10.0.0.0/8".parse()?, 1);
    /// if let Entry::Occupied(entry) = map.entry("10.1.2.3/8".parse()?) {
    ///     assert_eq!(entry.remove_entry(), ("10.0.0.0/8".parse()?, 1));
    /// }
    /// # Ok::<(), Box<dyn std::error::Error>>(())
    /// ```
    pub fn remove_entry(self) -> (N, V) {
        match self.parts.remove(self.network) {
            Some(entry) => entry,
            None => unreachable!("an occupied entry is in the map"),
        }
    }
}

impl<'a, N: Network, V> VacantEntry<'a, N, V> {
    /// Returns the network of the entry, with its host bits cleared.
    ///
    /// # Examples
    ///
    /// ```
    /// use fosibegan::prefix_map::Entry;
    /// use fosibegan::{IpNetwork, PrefixMap};
    ///
    /// let mut map: PrefixMap<IpNetwork, u8> = PrefixMap::new();
    /// if let Entry::Vacant(entry) = map.entry("10.1.2.3/8".parse()?) {
    ///     assert_eq!(entry.key().to_string(), "10.0.0.0/8");
    /// }
    /// # Ok::<(), Box<dyn std::error::Error>>(())
    /// ```
    pub fn key(&self) -> N {
        self.network
    }

    /// Returns the network, with its host bits cleared, and gives the entry up.
    ///
    /// # Examples
    ///
    /// ```
    /// use fosibegan::prefix_map::Entry;
    /// use fosibegan::{IpNetwork, PrefixMap};
    ///
    /// let mut map: PrefixMap<IpNetwork, u8> = PrefixMap::new();
    /// if let Entry::Vacant(entry) = map.entry("10.1.2.3/8".parse()?) {
    ///     assert_eq!(entry.into_key().to_string(), "10.0.0.0/8");
    /// }
    /// # Ok::<(), Box<dyn std::error::Error>>(())
    /// ```
    #[must_use]
    pub fn into_key(self) -> N {
        self.network
    }

    /// Inserts the value, and returns a reference to it.
    ///
    /// # Examples
    ///
    /// ```
    /// use fosibegan::PrefixMap;
    /// use fosibegan::prefix_map::Entry;
    ///
    /// let mut map = PrefixMap::new();
    /// if let Entry::Vacant(entry) = map.entry("10.0.0.0/8".parse()?) {
    ///     *entry.insert(1) += 1;
    /// }
    /// assert_eq!(map.get("10.0.0.0/8".parse()?), Some(&2));
    /// # Ok::<(), Box<dyn std::error::Error>>(())
    /// ```
    pub fn insert(self, value: V) -> &'a mut V {
        let place = self.parts.insert_new(self.network, value);
        self.parts.at_mut(place)
    }
}

impl<N: Network, V: Debug> Debug for OccupiedEntry<'_, N, V> {
    fn fmt(&self, f: &mut Formatter<'_>) -> fmt::Result {
        f.debug_struct("OccupiedEntry")
            .field("key", &self.key())
            .field("value", self.get())
            .finish()
    }
}

impl<N: Network, V> Debug for VacantEntry<'_, N, V> {
    fn fmt(&self, f: &mut Formatter<'_>) -> fmt::Result {
        f.debug_tuple("VacantEntry").field(&self.key()).finish()
    }
}
