//! Iterators that change the values of a map.

use super::both::Both;
use super::iter::forward;
use super::parts::Listed;
use crate::Network;
use crate::convert::{CoreV4, CoreV6};
use core::fmt::{self, Debug, Formatter};
use core::iter::FusedIterator;

/// An iterator over the entries of a map, in order, that gives references to change the values.
///
/// It is made by [`PrefixMap::iter_mut`](crate::PrefixMap::iter_mut).
///
/// # Examples
///
/// ```
/// use fosibegan::prefix_map::IterMut;
/// use fosibegan::{IpNetwork, PrefixMap};
///
/// let mut map = PrefixMap::new();
/// map.insert("10.0.0.0/8".parse()?, 1);
/// map.insert("10.1.0.0/16".parse()?, 2);
///
/// let entries: IterMut<'_, IpNetwork, i32> = map.iter_mut();
/// for (network, value) in entries {
///     *value = i32::from(network.prefix());
/// }
/// assert!(map.values().eq(&[8, 16]));
/// # Ok::<(), Box<dyn std::error::Error>>(())
/// ```
#[must_use = "iterators are lazy and do nothing unless consumed"]
pub struct IterMut<'a, N, V> {
    pub(super) inner: Both<N, Listed<CoreV4, &'a mut V>, Listed<CoreV6, &'a mut V>>,
}

/// An iterator over the values of a map, in the order of their networks, that gives references to
/// change them.
///
/// It is made by [`PrefixMap::values_mut`](crate::PrefixMap::values_mut).
///
/// # Examples
///
/// ```
/// use fosibegan::prefix_map::ValuesMut;
/// use fosibegan::{IpNetwork, PrefixMap};
///
/// let mut map = PrefixMap::new();
/// map.insert("10.0.0.0/8".parse()?, 1);
/// map.insert("10.1.0.0/16".parse()?, 2);
///
/// let values: ValuesMut<'_, IpNetwork, i32> = map.values_mut();
/// for value in values {
///     *value *= 10;
/// }
/// assert!(map.values().eq(&[10, 20]));
/// # Ok::<(), Box<dyn std::error::Error>>(())
/// ```
#[must_use = "iterators are lazy and do nothing unless consumed"]
pub struct ValuesMut<'a, N, V> {
    pub(super) inner: Both<N, Listed<CoreV4, &'a mut V>, Listed<CoreV6, &'a mut V>>,
}

forward!(IterMut<'a, N, V>, (N, &'a mut V), |entry| entry);
forward!(ValuesMut<'a, N, V>, &'a mut V, |(_, value)| value);

impl<N: Network, V> ExactSizeIterator for IterMut<'_, N, V> {}
impl<N: Network, V> ExactSizeIterator for ValuesMut<'_, N, V> {}

impl<N: Network, V: Debug> Debug for IterMut<'_, N, V> {
    fn fmt(&self, f: &mut Formatter<'_>) -> fmt::Result {
        f.debug_list().entries(self.inner.listed()).finish()
    }
}

impl<N: Network, V: Debug> Debug for ValuesMut<'_, N, V> {
    fn fmt(&self, f: &mut Formatter<'_>) -> fmt::Result {
        f.debug_list()
            .entries(self.inner.listed().map(|(_, value)| value))
            .finish()
    }
}
