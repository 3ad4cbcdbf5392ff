//! Iterators that consume a map.

use super::both::Both;
use super::iter::forward;
use super::parts::Listed;
use crate::Network;
use crate::convert::{CoreV4, CoreV6};
use core::fmt::{self, Debug, Formatter};
use core::iter::FusedIterator;

/// An iterator over the entries of a map that it has consumed, in order.
///
/// It is made by the method `into_iter` of [`PrefixMap`](crate::PrefixMap) and
/// [`FrozenMap`](crate::FrozenMap).
///
/// # Examples
///
/// ```
/// use fosibegan::prefix_map::IntoIter;
/// use fosibegan::{IpNetwork, PrefixMap};
///
/// let mut map = PrefixMap::new();
/// map.insert("10.0.0.0/8".parse()?, 1);
/// map.insert("10.1.0.0/16".parse()?, 2);
///
/// let mut entries: IntoIter<IpNetwork, i32> = map.into_iter();
/// assert_eq!(entries.next(), Some(("10.0.0.0/8".parse()?, 1)));
/// assert_eq!(entries.next_back(), Some(("10.1.0.0/16".parse()?, 2)));
/// # Ok::<(), Box<dyn std::error::Error>>(())
/// ```
#[must_use = "iterators are lazy and do nothing unless consumed"]
pub struct IntoIter<N, V> {
    pub(super) inner: Both<N, Listed<CoreV4, V>, Listed<CoreV6, V>>,
}

/// An iterator over the networks of a map that it has consumed, in order.
///
/// It is made by [`PrefixMap::into_keys`](crate::PrefixMap::into_keys).
///
/// # Examples
///
/// ```
/// use fosibegan::prefix_map::IntoKeys;
/// use fosibegan::{IpNetwork, PrefixMap};
///
/// let mut map = PrefixMap::new();
/// map.insert("10.0.0.0/8".parse()?, 1);
/// map.insert("10.1.0.0/16".parse()?, 2);
///
/// let mut networks: IntoKeys<IpNetwork, i32> = map.into_keys();
/// assert_eq!(networks.next(), Some("10.0.0.0/8".parse()?));
/// # Ok::<(), Box<dyn std::error::Error>>(())
/// ```
#[must_use = "iterators are lazy and do nothing unless consumed"]
pub struct IntoKeys<N, V> {
    pub(super) inner: Both<N, Listed<CoreV4, V>, Listed<CoreV6, V>>,
}

/// An iterator over the values of a map that it has consumed, in the order of their networks.
///
/// It is made by [`PrefixMap::into_values`](crate::PrefixMap::into_values).
///
/// # Examples
///
/// ```
/// use fosibegan::prefix_map::IntoValues;
/// use fosibegan::{IpNetwork, PrefixMap};
///
/// let mut map = PrefixMap::new();
/// map.insert("10.0.0.0/8".parse()?, 1);
/// map.insert("10.1.0.0/16".parse()?, 2);
///
/// let values: IntoValues<IpNetwork, i32> = map.into_values();
/// assert_eq!(values.collect::<Vec<i32>>(), [1, 2]);
/// # Ok::<(), Box<dyn std::error::Error>>(())
/// ```
#[must_use = "iterators are lazy and do nothing unless consumed"]
pub struct IntoValues<N, V> {
    pub(super) inner: Both<N, Listed<CoreV4, V>, Listed<CoreV6, V>>,
}

forward!(IntoIter<N, V>, (N, V), |entry| entry);
forward!(IntoKeys<N, V>, N, |(network, _)| network);
forward!(IntoValues<N, V>, V, |(_, value)| value);

impl<N: Network, V> ExactSizeIterator for IntoIter<N, V> {}
impl<N: Network, V> ExactSizeIterator for IntoKeys<N, V> {}
impl<N: Network, V> ExactSizeIterator for IntoValues<N, V> {}

impl<N, V: Clone> Clone for IntoIter<N, V> {
    fn clone(&self) -> Self {
        IntoIter {
            inner: self.inner.clone(),
        }
    }
}

impl<N: Network, V: Debug> Debug for IntoIter<N, V> {
    fn fmt(&self, f: &mut Formatter<'_>) -> fmt::Result {
        f.debug_list().entries(self.inner.listed()).finish()
    }
}

impl<N: Network, V> Debug for IntoKeys<N, V> {
    fn fmt(&self, f: &mut Formatter<'_>) -> fmt::Result {
        f.debug_list()
            .entries(self.inner.listed().map(|(network, _)| network))
            .finish()
    }
}

impl<N: Network, V: Debug> Debug for IntoValues<N, V> {
    fn fmt(&self, f: &mut Formatter<'_>) -> fmt::Result {
        f.debug_list()
            .entries(self.inner.listed().map(|(_, value)| value))
            .finish()
    }
}
