//! The addresses that are in one of two sets and not in both.

use super::in_order::InOrder;
use super::lazy::lazy;
use super::ranges::Runs;
use crate::convert::{CoreV4, CoreV6};
use crate::{AddressSet, IpNetwork, Network};
use core::fmt;
use core::iter::{FusedIterator, Peekable};
use core::marker::PhantomData;
use fosibegan_core::{AddressSpace, RangeBlocks, range_to_blocks};

/// An iterator over the networks of the addresses that are in one of two sets and not in both: what
/// [`AddressSet::symmetric_difference`] returns.
///
/// # Examples
///
/// ```
/// use fosibegan::{AddressSet, IpNetwork};
/// use fosibegan::address_set::SymmetricDifference;
///
/// let before = AddressSet::from(["192.0.2.0/25".parse::<IpNetwork>()?]);
/// let after = AddressSet::from(["192.0.2.0/24".parse::<IpNetwork>()?]);
/// let mut changed: SymmetricDifference<'_> = before.symmetric_difference(&after);
/// assert_eq!(changed.next(), Some("192.0.2.128/25".parse()?));
/// assert_eq!(changed.next(), None);
/// # Ok::<(), Box<dyn std::error::Error>>(())
/// ```
#[derive(Clone)]
#[must_use = "iterators are lazy and do nothing unless consumed"]
pub struct SymmetricDifference<'a, N: Network = IpNetwork> {
    networks: InOrder<Differing<'a, CoreV4>, Differing<'a, CoreV6>>,
    family: PhantomData<N>,
}

impl<N: Network> AddressSet<N> {
    /// Returns an iterator over the symmetric difference: the fewest networks that contain exactly
    /// the addresses that are in this set or in `other`, but not in both, in ascending order, IPv4
    /// first. It goes over both lists once, as it advances.
    ///
    /// As a set, this is `&set ^ &other`.
    ///
    /// # Examples
    ///
    /// ```
    /// use fosibegan::{AddressSet, IpNetwork};
    ///
    /// let before = AddressSet::from(["192.0.2.0/25".parse::<IpNetwork>()?]);
    /// let after = AddressSet::from(["192.0.2.64/26".parse::<IpNetwork>()?, "10.0.0.1".parse()?]);
    /// let changed = ["10.0.0.1/32".parse()?, "192.0.2.0/26".parse()?];
    /// assert!(before.symmetric_difference(&after).eq(changed));
    /// # Ok::<(), Box<dyn std::error::Error>>(())
    /// ```
    pub fn symmetric_difference<'a>(&'a self, other: &'a Self) -> SymmetricDifference<'a, N> {
        let v4 = Differing::between(self.v4.blocks(), other.v4.blocks());
        let v6 = Differing::between(self.v6.blocks(), other.v6.blocks());
        SymmetricDifference {
            networks: InOrder::new(Some(v4), Some(v6), None),
            family: PhantomData,
        }
    }
}

lazy!(SymmetricDifference);

/// Where the ranges of a set begin, and where what follows them begins, in ascending order. What
/// follows the last address of the family has no beginning.
#[derive(Clone)]
struct Edges<'a, C: AddressSpace> {
    ranges: Runs<'a, C>,
    after: Option<C::Addr>,
}

impl<C: AddressSpace> Iterator for Edges<'_, C> {
    type Item = C::Addr;

    fn next(&mut self) -> Option<C::Addr> {
        if let Some(edge) = self.after.take() {
            return Some(edge);
        }
        let (first, last) = self.ranges.next()?;
        self.after = C::next_address(last);
        Some(first)
    }
}

/// The blocks of the addresses that are in one of two sets and not in both.
///
/// Whether an address is in a set changes at each of its edges; whether it is in exactly one of two
/// changes at the edges of one that are not edges of the other.
#[derive(Clone)]
struct Differing<'a, C: AddressSpace> {
    blocks: Option<RangeBlocks<C>>,
    one: Peekable<Edges<'a, C>>,
    other: Peekable<Edges<'a, C>>,
}

impl<'a, C: AddressSpace> Differing<'a, C> {
    fn between(one: &'a [C], other: &'a [C]) -> Self {
        let edges = |blocks| {
            Edges {
                ranges: Runs::of(blocks),
                after: None,
            }
            .peekable()
        };
        Differing {
            blocks: None,
            one: edges(one),
            other: edges(other),
        }
    }

    /// The next edge that only one of the sets has.
    fn next_edge(&mut self) -> Option<C::Addr> {
        while self.one.peek().is_some() && self.one.peek() == self.other.peek() {
            self.one.next();
            self.other.next();
        }
        match (self.one.peek(), self.other.peek()) {
            (Some(edge), Some(other)) if other < edge => self.other.next(),
            (Some(_), _) => self.one.next(),
            (None, _) => self.other.next(),
        }
    }
}

impl<C: AddressSpace> Iterator for Differing<'_, C> {
    type Item = C;

    fn next(&mut self) -> Option<C> {
        loop {
            if let Some(block) = self.blocks.as_mut().and_then(Iterator::next) {
                return Some(block);
            }
            let first = self.next_edge()?;
            let last = match self.next_edge() {
                Some(after) => C::previous_address(after)?,
                None => C::whole().broadcast(),
            };
            self.blocks = range_to_blocks(first, last);
        }
    }
}
