//! What changes a map.

use super::{Entry, FrozenMap, IntoKeys, IntoValues, IterMut, PrefixMap, ValuesMut};
use crate::Network;

impl<N: Network, V> PrefixMap<N, V> {
    /// Inserts a network with its value, and returns the value that the network had before.
    ///
    /// Host bits of the network are cleared.
    ///
    /// # Panics
    ///
    /// Panics if the map already has 2³² networks of this family and not this one.
    ///
    /// # Examples
    ///
    /// ```
    /// use fosibegan::PrefixMap;
    ///
    /// let mut map = PrefixMap::new();
    /// assert_eq!(map.insert("10.0.0.0/8".parse()?, 1), None);
    /// assert_eq!(map.insert("10.1.2.3/8".parse()?, 2), Some(1));
    /// assert_eq!(map.len(), 1);
    /// # Ok::<(), Box<dyn std::error::Error>>(())
    /// ```
    pub fn insert(&mut self, network: N, value: V) -> Option<V> {
        self.parts.insert(network, value)
    }

    /// Returns the entry of a network, to look at its value, to change it, or to insert one if the
    /// network has none.
    ///
    /// # Examples
    ///
    /// ```
    /// use fosibegan::PrefixMap;
    ///
    /// let mut bytes = PrefixMap::new();
    /// for (network, count) in [("10.0.0.0/8", 20), ("10.1.0.0/16", 5), ("10.0.0.0/8", 30)] {
    ///     *bytes.entry(network.parse()?).or_insert(0) += count;
    /// }
    /// assert_eq!(bytes.get("10.0.0.0/8".parse()?), Some(&50));
    /// # Ok::<(), Box<dyn std::error::Error>>(())
    /// ```
    pub fn entry(&mut self, network: N) -> Entry<'_, N, V> {
        Entry::of(&mut self.parts, network)
    }

    /// Removes exactly this network, and returns its value.
    ///
    /// # Examples
    ///
    /// ```
    /// use fosibegan::PrefixMap;
    ///
    /// let mut map = PrefixMap::new();
    /// map.insert("10.0.0.0/8".parse()?, 1);
    /// assert_eq!(map.remove("10.1.0.0/16".parse()?), None);
    /// assert_eq!(map.remove("10.0.0.0/8".parse()?), Some(1));
    /// assert!(map.is_empty());
    /// # Ok::<(), Box<dyn std::error::Error>>(())
    /// ```
    pub fn remove(&mut self, network: N) -> Option<V> {
        self.parts.remove(network).map(|(_, value)| value)
    }

    /// Removes the first network in order, and returns it with its value.
    ///
    /// # Examples
    ///
    /// ```
    /// use fosibegan::PrefixMap;
    ///
    /// let mut map = PrefixMap::new();
    /// map.insert("10.1.0.0/16".parse()?, 2);
    /// map.insert("10.0.0.0/8".parse()?, 1);
    /// assert_eq!(map.pop_first(), Some(("10.0.0.0/8".parse()?, 1)));
    /// # Ok::<(), Box<dyn std::error::Error>>(())
    /// ```
    pub fn pop_first(&mut self) -> Option<(N, V)> {
        let (network, _) = self.first_key_value()?;
        self.parts.remove(network)
    }

    /// Removes the last network in order, and returns it with its value.
    ///
    /// # Examples
    ///
    /// ```
    /// use fosibegan::PrefixMap;
    ///
    /// let mut map = PrefixMap::new();
    /// map.insert("10.1.0.0/16".parse()?, 2);
    /// map.insert("10.0.0.0/8".parse()?, 1);
    /// assert_eq!(map.pop_last(), Some(("10.1.0.0/16".parse()?, 2)));
    /// # Ok::<(), Box<dyn std::error::Error>>(())
    /// ```
    pub fn pop_last(&mut self) -> Option<(N, V)> {
        let (network, _) = self.last_key_value()?;
        self.parts.remove(network)
    }

    /// Keeps the entries for which the closure returns `true`, and removes the others. They are
    /// visited in order.
    ///
    /// # Examples
    ///
    /// ```
    /// use fosibegan::PrefixMap;
    ///
    /// let mut map = PrefixMap::new();
    /// map.insert("10.0.0.0/8".parse()?, 1);
    /// map.insert("10.1.0.0/16".parse()?, 2);
    /// map.insert("10.1.9.0/24".parse()?, 3);
    /// map.retain(|network, value| network.prefix() > 8 && *value < 3);
    /// assert_eq!(map.keys().collect::<Vec<_>>(), ["10.1.0.0/16".parse()?]);
    /// # Ok::<(), Box<dyn std::error::Error>>(())
    /// ```
    pub fn retain<F: FnMut(N, &mut V) -> bool>(&mut self, keep: F) {
        self.parts.retain(keep);
    }

    /// Returns an iterator over the networks and their values, in order, to change the values.
    ///
    /// The call lists and sorts references to all values; to change a few, use
    /// [`get_mut`](Self::get_mut).
    ///
    /// # Examples
    ///
    /// ```
    /// use fosibegan::PrefixMap;
    ///
    /// let mut map = PrefixMap::new();
    /// map.insert("10.0.0.0/8".parse()?, 1);
    /// map.insert("10.1.0.0/16".parse()?, 2);
    /// for (network, value) in map.iter_mut() {
    ///     *value += i32::from(network.prefix());
    /// }
    /// assert_eq!(map.values().copied().collect::<Vec<i32>>(), [9, 18]);
    /// # Ok::<(), Box<dyn std::error::Error>>(())
    /// ```
    pub fn iter_mut(&mut self) -> IterMut<'_, N, V> {
        IterMut {
            inner: self.parts.iter_mut(),
        }
    }

    /// Returns an iterator over the values, in the order of their networks, to change them.
    ///
    /// It costs as much as [`iter_mut`](Self::iter_mut).
    ///
    /// # Examples
    ///
    /// ```
    /// use fosibegan::PrefixMap;
    ///
    /// let mut map = PrefixMap::new();
    /// map.insert("10.0.0.0/8".parse()?, 1);
    /// map.values_mut().for_each(|value| *value *= 10);
    /// assert_eq!(map.get("10.0.0.0/8".parse()?), Some(&10));
    /// # Ok::<(), Box<dyn std::error::Error>>(())
    /// ```
    pub fn values_mut(&mut self) -> ValuesMut<'_, N, V> {
        ValuesMut {
            inner: self.parts.iter_mut(),
        }
    }

    /// Turns the map into an iterator over its networks, in order.
    ///
    /// # Examples
    ///
    /// ```
    /// use fosibegan::PrefixMap;
    ///
    /// let mut map = PrefixMap::new();
    /// map.insert("10.1.0.0/16".parse()?, 2);
    /// map.insert("10.0.0.0/8".parse()?, 1);
    /// let networks: Vec<_> = map.into_keys().collect();
    /// assert_eq!(networks, ["10.0.0.0/8".parse()?, "10.1.0.0/16".parse()?]);
    /// # Ok::<(), Box<dyn std::error::Error>>(())
    /// ```
    pub fn into_keys(self) -> IntoKeys<N, V> {
        IntoKeys {
            inner: self.parts.into_entries(),
        }
    }

    /// Turns the map into an iterator over its values, in the order of their networks.
    ///
    /// # Examples
    ///
    /// ```
    /// use fosibegan::PrefixMap;
    ///
    /// let mut map = PrefixMap::new();
    /// map.insert("10.1.0.0/16".parse()?, "laboratory");
    /// map.insert("10.0.0.0/8".parse()?, "office");
    /// assert_eq!(map.into_values().collect::<Vec<_>>(), ["office", "laboratory"]);
    /// # Ok::<(), Box<dyn std::error::Error>>(())
    /// ```
    pub fn into_values(self) -> IntoValues<N, V> {
        IntoValues {
            inner: self.parts.into_entries(),
        }
    }

    /// Turns the map into a [`FrozenMap`], which answers faster and takes no more networks. Clone
    /// the map first to keep it.
    ///
    /// The values stay where they are. It takes less than half the time that it took to insert the
    /// networks.
    ///
    /// # Examples
    ///
    /// ```
    /// use fosibegan::PrefixMap;
    ///
    /// let mut map = PrefixMap::new();
    /// map.insert("10.0.0.0/8".parse()?, "office");
    ///
    /// let frozen = map.freeze();
    /// let found = frozen.longest_match("10.1.2.3".parse()?);
    /// assert_eq!(found, Some(("10.0.0.0/8".parse()?, &"office")));
    ///
    /// let mut map = frozen.into_map();
    /// map.insert("10.1.0.0/16".parse()?, "laboratory");
    /// # Ok::<(), Box<dyn std::error::Error>>(())
    /// ```
    #[must_use = "the map is consumed"]
    pub fn freeze(self) -> FrozenMap<N, V> {
        FrozenMap {
            parts: self.parts.freeze(),
        }
    }
}
