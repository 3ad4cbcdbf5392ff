//! The traits of `std` that a set has, and the sets that others are made into.

use super::addresses::Addresses;
use crate::{AddressSet, AddressSetBuilder, Network};
use core::cmp::Ordering;
use core::fmt;
use core::hash::{Hash, Hasher};

impl<N: Network> Clone for AddressSet<N> {
    fn clone(&self) -> Self {
        Self::of_parts(self.v4.clone(), self.v6.clone())
    }
}

impl<N: Network> fmt::Debug for AddressSet<N> {
    /// Writes the networks, as in `{10.0.0.0/8, 2001:db8::/32}`.
    fn fmt(&self, f: &mut fmt::Formatter<'_>) -> fmt::Result {
        f.debug_set().entries(self).finish()
    }
}

/// Two sets are equal if they have the same addresses.
impl<N: Network> PartialEq for AddressSet<N> {
    fn eq(&self, other: &Self) -> bool {
        self.v4.blocks() == other.v4.blocks() && self.v6.blocks() == other.v6.blocks()
    }
}

impl<N: Network> Eq for AddressSet<N> {}

impl<N: Network> Hash for AddressSet<N> {
    fn hash<H: Hasher>(&self, state: &mut H) {
        self.len().hash(state);
        self.networks().for_each(|network| network.hash(state));
    }
}

/// Sets are ordered as the lists of their networks are: by the first network in which they differ.
impl<N: Network> Ord for AddressSet<N> {
    fn cmp(&self, other: &Self) -> Ordering {
        self.networks().cmp(other)
    }
}

impl<N: Network> PartialOrd for AddressSet<N> {
    fn partial_cmp(&self, other: &Self) -> Option<Ordering> {
        Some(self.cmp(other))
    }
}

impl<N: Network, T: Addresses<N>> FromIterator<T> for AddressSet<N> {
    /// Creates the set of the addresses of all items.
    ///
    /// # Panics
    ///
    /// Panics if a range begins in one address family and ends in the other.
    fn from_iter<I: IntoIterator<Item = T>>(items: I) -> Self {
        AddressSetBuilder::from_iter(items).build()
    }
}

impl<N: Network, T: Addresses<N>> Extend<T> for AddressSet<N> {
    /// Adds the addresses of all items. Goes over the set once, however many there are.
    ///
    /// # Panics
    ///
    /// Panics if a range begins in one address family and ends in the other.
    fn extend<I: IntoIterator<Item = T>>(&mut self, items: I) {
        *self |= Self::from_iter(items);
    }
}

impl<N: Network, T: Addresses<N>, const K: usize> From<[T; K]> for AddressSet<N> {
    /// Creates the set of the addresses of all items.
    ///
    /// # Panics
    ///
    /// Panics if a range begins in one address family and ends in the other.
    fn from(items: [T; K]) -> Self {
        Self::from_iter(items)
    }
}
