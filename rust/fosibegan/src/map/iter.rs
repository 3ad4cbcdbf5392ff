//! Iterators that read a map.

use super::both::Both;
use super::part_iter::{PartCovering, PartIter, PartRange};
use crate::Network;
use crate::convert::{CoreV4, CoreV6};
use core::fmt::{self, Debug, Formatter};
use core::iter::FusedIterator;

/// An iterator over the entries of a map, in order.
///
/// It is made by the methods `iter` of [`PrefixMap`](crate::PrefixMap::iter) and
/// [`FrozenMap`](crate::FrozenMap::iter).
///
/// # Examples
///
/// ```
/// use fosibegan::prefix_map::Iter;
/// use fosibegan::{IpNetwork, PrefixMap};
///
/// let mut map = PrefixMap::new();
/// map.insert("10.0.0.0/8".parse()?, 1);
/// map.insert("10.1.0.0/16".parse()?, 2);
///
/// let mut entries: Iter<'_, IpNetwork, i32> = map.iter();
/// assert_eq!(entries.len(), 2);
/// assert_eq!(entries.next_back(), Some(("10.1.0.0/16".parse()?, &2)));
/// # Ok::<(), Box<dyn std::error::Error>>(())
/// ```
#[must_use = "iterators are lazy and do nothing unless consumed"]
pub struct Iter<'a, N, V> {
    pub(super) inner: Both<N, PartIter<'a, CoreV4, V>, PartIter<'a, CoreV6, V>>,
}

/// An iterator over the networks of a map, in order.
///
/// It is made by the methods `keys` of [`PrefixMap`](crate::PrefixMap::keys) and
/// [`FrozenMap`](crate::FrozenMap::keys).
///
/// # Examples
///
/// ```
/// use fosibegan::prefix_map::Keys;
/// use fosibegan::{IpNetwork, PrefixMap};
///
/// let mut map = PrefixMap::new();
/// map.insert("10.0.0.0/8".parse()?, 1);
/// map.insert("10.1.0.0/16".parse()?, 2);
///
/// let mut networks: Keys<'_, IpNetwork, i32> = map.keys();
/// assert_eq!(networks.next(), Some("10.0.0.0/8".parse()?));
/// assert_eq!(networks.next(), Some("10.1.0.0/16".parse()?));
/// # Ok::<(), Box<dyn std::error::Error>>(())
/// ```
#[must_use = "iterators are lazy and do nothing unless consumed"]
pub struct Keys<'a, N, V> {
    pub(super) inner: Both<N, PartIter<'a, CoreV4, V>, PartIter<'a, CoreV6, V>>,
}

/// An iterator over the values of a map, in the order of their networks.
///
/// It is made by the methods `values` of [`PrefixMap`](crate::PrefixMap::values) and
/// [`FrozenMap`](crate::FrozenMap::values).
///
/// # Examples
///
/// ```
/// use fosibegan::prefix_map::Values;
/// use fosibegan::{IpNetwork, PrefixMap};
///
/// let mut map = PrefixMap::new();
/// map.insert("10.0.0.0/8".parse()?, 1);
/// map.insert("10.1.0.0/16".parse()?, 2);
///
/// let values: Values<'_, IpNetwork, i32> = map.values();
/// assert_eq!(values.sum::<i32>(), 3);
/// # Ok::<(), Box<dyn std::error::Error>>(())
/// ```
#[must_use = "iterators are lazy and do nothing unless consumed"]
pub struct Values<'a, N, V> {
    pub(super) inner: Both<N, PartIter<'a, CoreV4, V>, PartIter<'a, CoreV6, V>>,
}

/// An iterator over the entries of a map whose networks contain a network, the shortest first.
///
/// It is made by the methods `covering` of [`PrefixMap`](crate::PrefixMap::covering) and
/// [`FrozenMap`](crate::FrozenMap::covering).
///
/// # Examples
///
/// ```
/// use fosibegan::prefix_map::Covering;
/// use fosibegan::{IpNetwork, PrefixMap};
///
/// let mut map = PrefixMap::new();
/// map.insert("10.0.0.0/8".parse()?, 1);
/// map.insert("10.1.0.0/16".parse()?, 2);
///
/// let network: IpNetwork = "10.1.9.0/24".parse()?;
/// let mut covering: Covering<'_, IpNetwork, i32> = map.covering(network);
/// assert_eq!(covering.next(), Some(("10.0.0.0/8".parse()?, &1)));
/// assert_eq!(covering.next(), Some(("10.1.0.0/16".parse()?, &2)));
/// assert_eq!(covering.next(), None);
/// # Ok::<(), Box<dyn std::error::Error>>(())
/// ```
#[must_use = "iterators are lazy and do nothing unless consumed"]
pub struct Covering<'a, N, V> {
    pub(super) inner: Both<N, PartCovering<'a, CoreV4, V>, PartCovering<'a, CoreV6, V>>,
}

/// An iterator over the entries of a map whose networks a network contains, in order.
///
/// It is made by the methods `covered_by` of [`PrefixMap`](crate::PrefixMap::covered_by) and
/// [`FrozenMap`](crate::FrozenMap::covered_by).
///
/// # Examples
///
/// ```
/// use fosibegan::prefix_map::CoveredBy;
/// use fosibegan::{IpNetwork, PrefixMap};
///
/// let mut map = PrefixMap::new();
/// map.insert("10.0.0.0/8".parse()?, 1);
/// map.insert("10.1.0.0/16".parse()?, 2);
///
/// let mut covered: CoveredBy<'_, IpNetwork, i32> = map.covered_by("10.0.0.0/9".parse()?);
/// assert_eq!(covered.next(), Some(("10.1.0.0/16".parse()?, &2)));
/// assert_eq!(covered.next(), None);
/// # Ok::<(), Box<dyn std::error::Error>>(())
/// ```
#[must_use = "iterators are lazy and do nothing unless consumed"]
pub struct CoveredBy<'a, N, V> {
    pub(super) inner: Both<N, PartRange<'a, CoreV4, V>, PartRange<'a, CoreV6, V>>,
}

/// Implements an iterator by the one inside, of which an item is mapped by `$pick`.
macro_rules! forward {
    ($name:ident<$($lifetime:lifetime,)? N, V>, $item:ty, $pick:expr) => {
        impl<$($lifetime,)? N: Network, V> Iterator for $name<$($lifetime,)? N, V> {
            type Item = $item;

            #[inline]
            fn next(&mut self) -> Option<Self::Item> {
                self.inner.next().map($pick)
            }

            fn size_hint(&self) -> (usize, Option<usize>) {
                self.inner.size_hint()
            }

            fn fold<S, F: FnMut(S, Self::Item) -> S>(self, first: S, step: F) -> S {
                self.inner.map($pick).fold(first, step)
            }

            fn last(mut self) -> Option<Self::Item> {
                self.next_back()
            }
        }

        impl<$($lifetime,)? N: Network, V> DoubleEndedIterator for $name<$($lifetime,)? N, V> {
            #[inline]
            fn next_back(&mut self) -> Option<Self::Item> {
                self.inner.next_back().map($pick)
            }
        }

        impl<$($lifetime,)? N: Network, V> FusedIterator for $name<$($lifetime,)? N, V> {}
    };
}

/// Implements `Clone` of an iterator that borrows.
macro_rules! shared {
    ($name:ident) => {
        impl<N, V> Clone for $name<'_, N, V> {
            fn clone(&self) -> Self {
                $name {
                    inner: self.inner.clone(),
                }
            }
        }
    };
}

/// Implements `Debug` of an iterator that borrows: it prints what is still to come.
macro_rules! printed {
    ($name:ident of $($shown:ident)?) => {
        impl<N: Network, V $(: $shown)?> Debug for $name<'_, N, V> {
            fn fmt(&self, f: &mut Formatter<'_>) -> fmt::Result {
                f.debug_list().entries(self.clone()).finish()
            }
        }
    };
}

pub(super) use forward;

forward!(Iter<'a, N, V>, (N, &'a V), |entry| entry);
forward!(Keys<'a, N, V>, N, |(network, _)| network);
forward!(Values<'a, N, V>, &'a V, |(_, value)| value);
forward!(Covering<'a, N, V>, (N, &'a V), |entry| entry);
forward!(CoveredBy<'a, N, V>, (N, &'a V), |entry| entry);

impl<N: Network, V> ExactSizeIterator for Iter<'_, N, V> {}
impl<N: Network, V> ExactSizeIterator for Keys<'_, N, V> {}
impl<N: Network, V> ExactSizeIterator for Values<'_, N, V> {}

shared!(Iter);
shared!(Keys);
shared!(Values);
shared!(Covering);
shared!(CoveredBy);

printed!(Iter of Debug);
printed!(Keys of);
printed!(Values of Debug);
printed!(Covering of Debug);
printed!(CoveredBy of Debug);
