//! The ranges of addresses of a set.

use crate::convert::{CoreV4, CoreV6, from_core_v4, from_core_v6};
use crate::network::sealed::Here;
use crate::{AddressSet, IpNetwork, Network};
use core::fmt;
use core::iter::FusedIterator;
use core::marker::PhantomData;
use core::ops::RangeInclusive;
use fosibegan_core::AddressSpace;
use fosibegan_core::ipnetwork_family::CidrNetwork;

/// An iterator over the ranges of addresses of an [`AddressSet`], in ascending order, IPv4 first:
/// what [`AddressSet::ranges`] returns.
///
/// # Examples
///
/// ```
/// use fosibegan::{AddressSet, IpNetwork};
/// use fosibegan::address_set::Ranges;
///
/// let set = AddressSet::from(["10.0.0.0/8".parse::<IpNetwork>()?, "192.0.2.0/24".parse()?]);
/// let mut ranges: Ranges<'_> = set.ranges();
/// assert_eq!(ranges.next_back(), Some("192.0.2.0".parse()?..="192.0.2.255".parse()?));
/// # Ok::<(), Box<dyn std::error::Error>>(())
/// ```
#[derive(Clone)]
#[must_use = "iterators are lazy and do nothing unless consumed"]
pub struct Ranges<'a, N: Network = IpNetwork> {
    v4: Runs<'a, CoreV4>,
    v6: Runs<'a, CoreV6>,
    family: PhantomData<N>,
}

impl<N: Network> AddressSet<N> {
    /// Returns an iterator over the addresses of the set as inclusive ranges, in ascending order,
    /// IPv4 first. Each range is as long as it can be: between two of them there is an address that
    /// is not in the set, or the end of IPv4.
    ///
    /// # Examples
    ///
    /// ```
    /// use fosibegan::{AddressSet, Ipv4Network};
    ///
    /// let set: AddressSet<Ipv4Network> =
    ///     ["10.0.0.0/24".parse::<Ipv4Network>()?, "10.0.1.0/25".parse()?].into();
    /// let ranges: Vec<String> = set
    ///     .ranges()
    ///     .map(|range| format!("{}-{}", range.start(), range.end()))
    ///     .collect();
    /// assert_eq!(ranges, ["10.0.0.0-10.0.1.127"]);
    /// # Ok::<(), Box<dyn std::error::Error>>(())
    /// ```
    pub fn ranges(&self) -> Ranges<'_, N> {
        Ranges {
            v4: Runs::of(self.v4.blocks()),
            v6: Runs::of(self.v6.blocks()),
            family: PhantomData,
        }
    }
}

/// The runs of a set's networks that follow each other without a gap, as their first and last
/// addresses.
#[derive(Clone)]
pub(super) struct Runs<'a, C> {
    rest: &'a [C],
}

impl<'a, C: AddressSpace> Runs<'a, C> {
    pub(super) fn of(blocks: &'a [C]) -> Self {
        Runs { rest: blocks }
    }

    fn next_back(&mut self) -> Option<Ends<C>> {
        let (block, before) = self.rest.split_last()?;
        let (mut first, last) = (block.ip(), block.broadcast());
        self.rest = before;
        while let Some((block, before)) = self.rest.split_last() {
            if !touch::<C>(block.broadcast(), first) {
                break;
            }
            first = block.ip();
            self.rest = before;
        }
        Some((first, last))
    }

    /// The least and the greatest number of runs that there may be.
    fn size_hint(&self) -> (usize, usize) {
        (self.rest.len().min(1), self.rest.len())
    }
}

impl<C: AddressSpace> Iterator for Runs<'_, C> {
    type Item = Ends<C>;

    fn next(&mut self) -> Option<Ends<C>> {
        let (block, after) = self.rest.split_first()?;
        let (first, mut last) = (block.ip(), block.broadcast());
        self.rest = after;
        while let Some((block, after)) = self.rest.split_first() {
            if !touch::<C>(last, block.ip()) {
                break;
            }
            last = block.broadcast();
            self.rest = after;
        }
        Some((first, last))
    }
}

/// Whether the second address follows the first.
fn touch<C: AddressSpace>(last: C::Addr, first: C::Addr) -> bool {
    C::next_address(last) == Some(first)
}

type Ends<C> = (<C as CidrNetwork>::Addr, <C as CidrNetwork>::Addr);

fn of_v4<N: Network>((first, last): Ends<CoreV4>) -> RangeInclusive<N::Addr> {
    N::address_of_v4(from_core_v4(first), Here(()))..=N::address_of_v4(from_core_v4(last), Here(()))
}

fn of_v6<N: Network>((first, last): Ends<CoreV6>) -> RangeInclusive<N::Addr> {
    N::address_of_v6(from_core_v6(first), Here(()))..=N::address_of_v6(from_core_v6(last), Here(()))
}

impl<N: Network> Iterator for Ranges<'_, N> {
    type Item = RangeInclusive<N::Addr>;

    fn next(&mut self) -> Option<RangeInclusive<N::Addr>> {
        match self.v4.next() {
            Some(ends) => Some(of_v4::<N>(ends)),
            None => self.v6.next().map(of_v6::<N>),
        }
    }

    fn size_hint(&self) -> (usize, Option<usize>) {
        let (v4, v6) = (self.v4.size_hint(), self.v6.size_hint());
        (v4.0 + v6.0, Some(v4.1 + v6.1))
    }
}

impl<N: Network> DoubleEndedIterator for Ranges<'_, N> {
    fn next_back(&mut self) -> Option<RangeInclusive<N::Addr>> {
        match self.v6.next_back() {
            Some(ends) => Some(of_v6::<N>(ends)),
            None => self.v4.next_back().map(of_v4::<N>),
        }
    }
}

impl<N: Network> FusedIterator for Ranges<'_, N> {}

impl<N: Network> fmt::Debug for Ranges<'_, N> {
    fn fmt(&self, f: &mut fmt::Formatter<'_>) -> fmt::Result {
        f.debug_list().entries(self.clone()).finish()
    }
}
