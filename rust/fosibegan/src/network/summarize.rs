//! Iterators over the networks of a range of addresses.

use super::sealed::Here;
use crate::convert::{CoreV4, CoreV6, asked_v4, asked_v6};
use crate::{IpNetwork, Ipv4Network, Ipv6Network, Network};
use core::fmt;
use core::iter::FusedIterator;
use core::marker::PhantomData;
use core::net::{IpAddr, Ipv4Addr, Ipv6Addr};
use core::ops::RangeInclusive;
use fosibegan_core::{RangeBlocks, range_to_blocks};

/// An iterator over the fewest networks that contain exactly the addresses of a range, in ascending
/// order.
///
/// It is made by the function `summarize` of a type of networks.
///
/// # Examples
///
/// ```
/// use fosibegan::{Ipv4Network, Summarize};
/// use std::net::Ipv4Addr;
///
/// let range = Ipv4Addr::new(192, 0, 2, 1)..=Ipv4Addr::new(192, 0, 2, 4);
/// let mut networks: Summarize<Ipv4Network> = Ipv4Network::summarize(range);
/// assert_eq!(networks.len(), 3);
/// assert_eq!(networks.next(), Some("192.0.2.1/32".parse()?));
/// assert_eq!(networks.next(), Some("192.0.2.2/31".parse()?));
/// # Ok::<(), Box<dyn std::error::Error>>(())
/// ```
#[derive(Clone)]
#[must_use = "iterators are lazy and do nothing unless consumed"]
pub struct Summarize<N: Network> {
    inner: Inner,
    /// How many are left.
    len: usize,
    family: PhantomData<N>,
}

#[derive(Clone)]
enum Inner {
    V4(Option<RangeBlocks<CoreV4>>),
    V6(Option<RangeBlocks<CoreV6>>),
}

impl<N: Network> Summarize<N> {
    /// The networks of a range of IPv4 addresses, if `N` has these.
    pub(super) fn of_v4(range: &RangeInclusive<Ipv4Addr>) -> Self {
        let ends = ends(range);
        let inner = ends.and_then(|(first, last)| range_to_blocks(asked_v4(first), asked_v4(last)));
        let len = ends.map_or(0, |(first, last)| {
            count(first.to_bits().into(), last.to_bits().into())
        });
        Self {
            inner: Inner::V4(inner),
            len,
            family: PhantomData,
        }
    }

    /// The networks of a range of IPv6 addresses, if `N` has these.
    pub(super) fn of_v6(range: &RangeInclusive<Ipv6Addr>) -> Self {
        let ends = ends(range);
        let inner = ends.and_then(|(first, last)| range_to_blocks(asked_v6(first), asked_v6(last)));
        let len = ends.map_or(0, |(first, last)| count(first.to_bits(), last.to_bits()));
        Self {
            inner: Inner::V6(inner),
            len,
            family: PhantomData,
        }
    }
}

impl Summarize<IpNetwork> {
    /// The networks of a range of addresses of one family.
    pub(super) fn of_either(range: &RangeInclusive<IpAddr>) -> Option<Self> {
        match (*range.start(), *range.end()) {
            (IpAddr::V4(first), IpAddr::V4(last)) => Some(Self::of_v4(&(first..=last))),
            (IpAddr::V6(first), IpAddr::V6(last)) => Some(Self::of_v6(&(first..=last))),
            _ => None,
        }
    }
}

/// The first and the last address of a range that is not empty.
fn ends<A: Copy + PartialOrd>(range: &RangeInclusive<A>) -> Option<(A, A)> {
    if range.is_empty() {
        None
    } else {
        Some((*range.start(), *range.end()))
    }
}

/// The number of the fewest networks for the addresses from one number to another, which is not
/// less. The smallest network around both has two halves, and the numbers lie in both of them:
/// each bit of how many are in one half is a network.
fn count(first: u128, last: u128) -> usize {
    let Some(highest) = (first ^ last).checked_ilog2() else {
        return 1;
    };
    let half = 1 << highest;
    let middle = last & !(half - 1);
    let (below, from) = (middle - first, last - middle + 1);
    if below == half && from == half {
        return 1;
    }
    (below.count_ones() + from.count_ones()) as usize
}

impl<N: Network> fmt::Debug for Summarize<N> {
    fn fmt(&self, f: &mut fmt::Formatter<'_>) -> fmt::Result {
        f.write_str("Summarize")?;
        f.debug_list().entries(self.clone()).finish()
    }
}

impl<N: Network> Iterator for Summarize<N> {
    type Item = N;

    fn next(&mut self) -> Option<N> {
        self.len = self.len.checked_sub(1)?;
        match &mut self.inner {
            Inner::V4(blocks) => blocks
                .as_mut()?
                .next()
                .map(|block| N::of_v4(Ipv4Network::from_core(block), Here(()))),
            Inner::V6(blocks) => blocks
                .as_mut()?
                .next()
                .map(|block| N::of_v6(Ipv6Network::from_core(block), Here(()))),
        }
    }

    fn size_hint(&self) -> (usize, Option<usize>) {
        (self.len, Some(self.len))
    }
}

impl<N: Network> ExactSizeIterator for Summarize<N> {}

impl<N: Network> FusedIterator for Summarize<N> {}
