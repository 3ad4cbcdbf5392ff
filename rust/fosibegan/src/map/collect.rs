//! Maps of iterators, and iterators of maps.

use super::parts::Tables;
use super::{FrozenMap, IntoIter, Iter, IterMut, PrefixMap};
use crate::Network;

impl<N: Network, V> Extend<(N, V)> for PrefixMap<N, V> {
    /// Inserts each network with its value. If a network comes more than once, the last value
    /// counts.
    fn extend<I: IntoIterator<Item = (N, V)>>(&mut self, entries: I) {
        if self.is_empty() {
            *self = entries.into_iter().collect();
            return;
        }
        for (network, value) in entries {
            self.insert(network, value);
        }
    }
}

impl<N: Network, V> FromIterator<(N, V)> for PrefixMap<N, V> {
    /// Makes a map of networks with their values. If a network comes more than once, the last value
    /// counts.
    fn from_iter<I: IntoIterator<Item = (N, V)>>(entries: I) -> Self {
        PrefixMap {
            parts: Tables::of_entries(entries.into_iter()),
        }
    }
}

impl<N: Network, V, const COUNT: usize> From<[(N, V); COUNT]> for PrefixMap<N, V> {
    /// Makes a map of networks with their values. If a network comes more than once, the last value
    /// counts.
    fn from(entries: [(N, V); COUNT]) -> Self {
        entries.into_iter().collect()
    }
}

impl<N: Network, V> FromIterator<(N, V)> for FrozenMap<N, V> {
    /// Makes a map of networks with their values. If a network comes more than once, the last value
    /// counts.
    fn from_iter<I: IntoIterator<Item = (N, V)>>(entries: I) -> Self {
        PrefixMap::from_iter(entries).freeze()
    }
}

impl<N: Network, V, const COUNT: usize> From<[(N, V); COUNT]> for FrozenMap<N, V> {
    /// Makes a map of networks with their values. If a network comes more than once, the last value
    /// counts.
    fn from(entries: [(N, V); COUNT]) -> Self {
        entries.into_iter().collect()
    }
}

impl<N: Network, V> From<PrefixMap<N, V>> for FrozenMap<N, V> {
    /// Makes what [`PrefixMap::freeze`] makes.
    fn from(map: PrefixMap<N, V>) -> Self {
        map.freeze()
    }
}

impl<N: Network, V> From<FrozenMap<N, V>> for PrefixMap<N, V> {
    /// Makes what [`FrozenMap::into_map`] makes.
    fn from(map: FrozenMap<N, V>) -> Self {
        map.into_map()
    }
}

macro_rules! into_iter {
    ($name:ident) => {
        impl<N: Network, V> IntoIterator for $name<N, V> {
            type Item = (N, V);
            type IntoIter = IntoIter<N, V>;

            fn into_iter(self) -> IntoIter<N, V> {
                IntoIter {
                    inner: self.parts.into_entries(),
                }
            }
        }

        impl<'a, N: Network, V> IntoIterator for &'a $name<N, V> {
            type Item = (N, &'a V);
            type IntoIter = Iter<'a, N, V>;

            fn into_iter(self) -> Iter<'a, N, V> {
                self.iter()
            }
        }

        impl<'a, N: Network, V> IntoIterator for &'a mut $name<N, V> {
            type Item = (N, &'a mut V);
            type IntoIter = IterMut<'a, N, V>;

            fn into_iter(self) -> IterMut<'a, N, V> {
                self.iter_mut()
            }
        }
    };
}

into_iter!(PrefixMap);
into_iter!(FrozenMap);
