//! Sets that are put together piece by piece.

use super::addresses::Addresses;
use super::in_order::blocks_of_range;
use crate::convert::{CoreV4, CoreV6};
use crate::{AddressSet, IpNetwork, Network};
use alloc::collections::TryReserveError;
use alloc::vec::Vec;
use core::fmt;
use core::marker::PhantomData;
use core::ops::RangeInclusive;
use fosibegan_core::{AddressSet as CoreSet, AddressSpace, aggregate_in_place};

/// An [`AddressSet`] that is being put together, one network or range at a time.
///
/// [`AddressSet::insert`] puts each network in its place at once, and moves others to make room. A
/// builder only takes note of it: 400,000 networks in random order take a tenth of a second instead
/// of more than ten. Whenever its list has become four times as long, from 65,536 networks on, it
/// is reduced to the fewest, so it never needs much more than four times the memory of the set,
/// however often the same addresses come. Only the items of a single iterator are all kept until
/// its end, if it says how many they are.
///
/// A builder can be extended by iterators too; a single iterator is
/// [collected](AddressSet#impl-FromIterator<T>-for-AddressSet<N>) without a builder.
///
/// # Examples
///
/// ```
/// use fosibegan::{AddressSet, AddressSetBuilder, IpNetwork};
///
/// let mut builder = AddressSetBuilder::new();
/// for line in "192.0.2.0/25\n192.0.2.128/25".lines() {
///     builder.insert(line.parse()?);
/// }
/// builder.insert_range("10.0.0.0".parse()?..="10.0.0.3".parse()?);
/// let set: AddressSet<IpNetwork> = builder.build();
/// assert!(set.networks().eq(["10.0.0.0/30".parse()?, "192.0.2.0/24".parse()?]));
/// # Ok::<(), Box<dyn std::error::Error>>(())
/// ```
#[derive(Clone)]
pub struct AddressSetBuilder<N: Network = IpNetwork> {
    v4: Gathered<CoreV4>,
    v6: Gathered<CoreV6>,
    family: PhantomData<N>,
}

impl AddressSetBuilder {
    /// Creates an empty builder for a set of both families. It does not allocate.
    ///
    /// A builder for one family is made by `AddressSetBuilder::<Ipv4Network>::default()`.
    ///
    /// # Examples
    ///
    /// ```
    /// use fosibegan::AddressSetBuilder;
    ///
    /// let mut builder = AddressSetBuilder::new();
    /// builder.insert("2001:db8::/32".parse()?);
    /// assert_eq!(builder.build().len(), 1);
    /// # Ok::<(), Box<dyn std::error::Error>>(())
    /// ```
    #[must_use]
    pub fn new() -> Self {
        Self::default()
    }
}

impl<N: Network> AddressSetBuilder<N> {
    /// Creates an empty builder with memory for `capacity` networks of each family that `N` has.
    ///
    /// # Examples
    ///
    /// ```
    /// use fosibegan::{AddressSetBuilder, Ipv4Network};
    ///
    /// let builder = AddressSetBuilder::<Ipv4Network>::with_capacity(1000);
    /// assert!(builder.build().is_empty());
    /// ```
    #[must_use]
    pub fn with_capacity(capacity: usize) -> Self {
        let mut builder = Self::default();
        builder.reserve(capacity);
        builder
    }

    /// Reserves memory for `additional` more networks of each family that `N` has.
    ///
    /// # Panics
    ///
    /// Panics if the new capacity exceeds `isize::MAX` bytes.
    ///
    /// # Examples
    ///
    /// ```
    /// use fosibegan::AddressSetBuilder;
    ///
    /// let mut builder = AddressSetBuilder::new();
    /// builder.reserve(1000);
    /// builder.insert("2001:db8::/32".parse()?);
    /// # Ok::<(), Box<dyn std::error::Error>>(())
    /// ```
    pub fn reserve(&mut self, additional: usize) {
        if N::HAS_V4 {
            self.v4.networks.reserve(additional);
        }
        if N::HAS_V6 {
            self.v6.networks.reserve(additional);
        }
    }

    /// Tries to reserve memory for `additional` more networks of each family that `N` has.
    ///
    /// # Errors
    ///
    /// Returns an error if the new capacity exceeds `isize::MAX` bytes, or if there is no memory
    /// for it. The builder then has what it had.
    ///
    /// # Examples
    ///
    /// ```
    /// use fosibegan::AddressSetBuilder;
    ///
    /// let mut builder = AddressSetBuilder::new();
    /// builder.try_reserve(1000)?;
    /// assert!(builder.try_reserve(usize::MAX).is_err());
    /// # Ok::<(), Box<dyn std::error::Error>>(())
    /// ```
    pub fn try_reserve(&mut self, additional: usize) -> Result<(), TryReserveError> {
        if N::HAS_V4 {
            self.v4.networks.try_reserve(additional)?;
        }
        if N::HAS_V6 {
            self.v6.networks.try_reserve(additional)?;
        }
        Ok(())
    }

    /// Adds the addresses of a network. Host bits make no difference.
    ///
    /// # Examples
    ///
    /// ```
    /// use fosibegan::AddressSetBuilder;
    ///
    /// let mut builder = AddressSetBuilder::new();
    /// builder.insert("10.1.2.3/8".parse()?);
    /// assert!(builder.build().networks().eq(["10.0.0.0/8".parse()?]));
    /// # Ok::<(), Box<dyn std::error::Error>>(())
    /// ```
    #[inline]
    pub fn insert(&mut self, network: N) {
        match network.either() {
            IpNetwork::V4(network) => self.v4.push(network.asked()),
            IpNetwork::V6(network) => self.v6.push(network.asked()),
        }
    }

    /// Adds the addresses of a range, both ends included. A range that ends before it begins has no
    /// addresses.
    ///
    /// # Panics
    ///
    /// Panics if the range begins in one address family and ends in the other.
    ///
    /// # Examples
    ///
    /// ```
    /// use fosibegan::AddressSetBuilder;
    ///
    /// let mut builder = AddressSetBuilder::new();
    /// builder.insert_range("10.0.0.0".parse()?..="10.0.0.255".parse()?);
    /// assert!(builder.build().networks().eq(["10.0.0.0/24".parse()?]));
    /// # Ok::<(), Box<dyn std::error::Error>>(())
    /// ```
    pub fn insert_range(&mut self, range: RangeInclusive<N::Addr>) {
        let (v4, v6) = blocks_of_range::<N>(&range);
        v4.into_iter()
            .flatten()
            .for_each(|block| self.v4.push(block));
        v6.into_iter()
            .flatten()
            .for_each(|block| self.v6.push(block));
    }

    /// Returns the set of all addresses that were added.
    ///
    /// # Examples
    ///
    /// ```
    /// use fosibegan::{AddressSet, AddressSetBuilder};
    ///
    /// let set: AddressSet = AddressSetBuilder::new().build();
    /// assert!(set.is_empty());
    /// ```
    #[must_use]
    pub fn build(self) -> AddressSet<N> {
        AddressSet::of_parts(self.v4.into_set(), self.v6.into_set())
    }
}

impl<N: Network> Default for AddressSetBuilder<N> {
    /// Creates an empty builder. It does not allocate.
    fn default() -> Self {
        Self {
            v4: Gathered::default(),
            v6: Gathered::default(),
            family: PhantomData,
        }
    }
}

impl<N: Network, T: Addresses<N>> Extend<T> for AddressSetBuilder<N> {
    /// Adds the addresses of all items.
    ///
    /// # Panics
    ///
    /// Panics if a range begins in one address family and ends in the other.
    fn extend<I: IntoIterator<Item = T>>(&mut self, items: I) {
        let items = items.into_iter();
        let (least, _) = items.size_hint();
        self.v4.expect(least);
        self.v6.expect(least);
        items.for_each(|item| item.add_to(self));
        self.v4.expect(0);
        self.v6.expect(0);
    }
}

impl<N: Network, T: Addresses<N>> FromIterator<T> for AddressSetBuilder<N> {
    /// Creates a builder with the addresses of all items.
    ///
    /// # Panics
    ///
    /// Panics if a range begins in one address family and ends in the other.
    fn from_iter<I: IntoIterator<Item = T>>(items: I) -> Self {
        let mut builder = Self::default();
        builder.extend(items);
        builder
    }
}

impl<N: Network> fmt::Debug for AddressSetBuilder<N> {
    fn fmt(&self, f: &mut fmt::Formatter<'_>) -> fmt::Result {
        f.debug_struct("AddressSetBuilder").finish_non_exhaustive()
    }
}

/// A list of so many networks is not worth reducing: it takes a megabyte or so.
const FEW: usize = 1 << 16;

/// Networks of one family, in any order.
#[derive(Clone)]
struct Gathered<C> {
    networks: Vec<C>,
    /// The length from which on the list is to be reduced to the fewest networks: four times what
    /// was left of it the last time, so that over all this takes less time than to sort the whole
    /// list again.
    due: usize,
    /// The length at which it is reduced, which is greater while an iterator adds what it announced.
    limit: usize,
}

impl<C> Default for Gathered<C> {
    fn default() -> Self {
        Gathered {
            networks: Vec::new(),
            due: FEW,
            limit: FEW,
        }
    }
}

impl<C: AddressSpace> Gathered<C> {
    #[inline]
    fn push(&mut self, network: C) {
        if self.networks.len() >= self.limit {
            self.reduce();
        }
        self.networks.push(network);
    }

    /// So many networks that come at once are sorted once.
    fn expect(&mut self, more: usize) {
        if more > 0 && self.networks.len() >= self.due {
            self.reduce();
        }
        self.limit = self.due.max(self.networks.len().saturating_add(more));
    }

    #[cold]
    fn reduce(&mut self) {
        let count = aggregate_in_place(&mut self.networks);
        self.networks.truncate(count);
        self.due = FEW.max(count.saturating_mul(4));
        self.limit = self.due;
    }

    fn into_set(self) -> CoreSet<C> {
        CoreSet::from_networks(self.networks.into())
    }
}

#[cfg(test)]
mod tests {
    use super::{AddressSetBuilder, FEW, Gathered};
    use crate::{IpNetwork, Ipv4Network, Ipv6Network};
    use core::net::Ipv4Addr;

    /// The addresses of a list that comes again and again, each a network of its own.
    fn every_other(count: u32) -> impl ExactSizeIterator<Item = Ipv4Addr> + Clone {
        (0..count).map(|number| Ipv4Addr::from_bits(2 * number))
    }

    fn kept<C>(gathered: &Gathered<C>) -> usize {
        gathered.networks.len()
    }

    #[test]
    fn addresses_that_come_again_take_no_memory() {
        let most = 4 * 20_000 + 20_000;
        let mut one_by_one = AddressSetBuilder::<Ipv4Network>::default();
        let mut by_lists = one_by_one.clone();
        let mut by_long_lists = one_by_one.clone();
        let long = every_other(20_000)
            .collect::<alloc::vec::Vec<_>>()
            .repeat(5);
        for _ in 0..30 {
            every_other(20_000).for_each(|addr| one_by_one.insert(addr.into()));
            by_lists.extend(every_other(20_000));
            by_long_lists.extend(&long);
            assert!(kept(&one_by_one.v4) <= most && kept(&by_lists.v4) <= most);
            assert!(kept(&by_long_lists.v4) <= most + long.len());
        }
        let set = one_by_one.build();
        assert_eq!(set.len(), 20_000);
        assert!(by_lists.build() == set && by_long_lists.build() == set);
    }

    /// An iterator that says that more items come than there can be.
    #[derive(Clone)]
    struct Endless<I>(I);

    impl<I: Iterator> Iterator for Endless<I> {
        type Item = I::Item;

        fn next(&mut self) -> Option<I::Item> {
            self.0.next()
        }

        fn size_hint(&self) -> (usize, Option<usize>) {
            (usize::MAX, None)
        }
    }

    #[test]
    fn what_an_iterator_says_is_no_request_for_memory() {
        let mut builder = AddressSetBuilder::<IpNetwork>::default();
        for _ in 0..2 {
            builder.extend(Endless(every_other(3)));
        }
        assert_eq!((kept(&builder.v4), kept(&builder.v6)), (6, 0));
        assert_eq!((builder.v4.limit, builder.v6.limit), (FEW, FEW));
        assert_eq!(builder.v6.networks.capacity(), 0);
    }

    #[test]
    fn memory_is_reserved_for_the_families_of_the_set() {
        let v4 = AddressSetBuilder::<Ipv4Network>::with_capacity(9);
        assert!(v4.v4.networks.capacity() >= 9 && v4.v6.networks.capacity() == 0);
        let mut v6 = AddressSetBuilder::<Ipv6Network>::default();
        assert!(v6.try_reserve(9).is_ok() && v6.try_reserve(usize::MAX).is_err());
        assert!(v6.v6.networks.capacity() >= 9 && v6.v4.networks.capacity() == 0);
        let mut both = AddressSetBuilder::new();
        both.reserve(9);
        assert!(both.v4.networks.capacity() >= 9 && both.v6.networks.capacity() >= 9);
    }
}
