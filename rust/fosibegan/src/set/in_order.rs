//! Iterators over networks of IPv4 and then of IPv6.

use crate::convert::{CoreV4, CoreV6, asked_v4, asked_v6};
use crate::network::sealed::Here;
use crate::{Ipv4Network, Ipv6Network, Network};
use core::net::IpAddr;
use core::ops::RangeInclusive;
use fosibegan_core::{RangeBlocks, range_to_blocks};

/// What is left of an iterator of the core over networks of IPv4, and of one over networks of IPv6.
/// Either is dropped when it ends, since some of the core's look for the end again if asked again.
#[derive(Clone)]
pub(super) struct InOrder<A, B> {
    v4: Option<A>,
    v6: Option<B>,
    /// How many networks are left at most, if that fits.
    most: Option<usize>,
}

impl<A, B> InOrder<A, B> {
    pub(super) fn new(v4: Option<A>, v6: Option<B>, most: Option<usize>) -> Self {
        Self { v4, v6, most }
    }

    pub(super) fn size_hint(&self) -> (usize, Option<usize>) {
        match (&self.v4, &self.v6) {
            (None, None) => (0, Some(0)),
            _ => (0, self.most),
        }
    }
}

impl<A: Iterator<Item = CoreV4>, B: Iterator<Item = CoreV6>> InOrder<A, B> {
    /// The next network, as one of the type `N`.
    pub(super) fn next<N: Network>(&mut self) -> Option<N> {
        let network = self.next_of_v4().or_else(|| self.next_of_v6())?;
        self.most = self.most.map(|most| most.saturating_sub(1));
        Some(network)
    }

    fn next_of_v4<N: Network>(&mut self) -> Option<N> {
        let network = self.v4.as_mut()?.next();
        if network.is_none() {
            self.v4 = None;
        }
        network.map(|network| N::of_v4(Ipv4Network::from_core(network), Here(())))
    }

    fn next_of_v6<N: Network>(&mut self) -> Option<N> {
        let network = self.v6.as_mut()?.next();
        if network.is_none() {
            self.v6 = None;
        }
        network.map(|network| N::of_v6(Ipv6Network::from_core(network), Here(())))
    }
}

/// The fewest networks with the addresses of a range, of one family; none if it ends before it
/// begins.
///
/// # Panics
///
/// Panics if the range begins in one family and ends in the other.
pub(super) fn blocks_of_range<N: Network>(
    range: &RangeInclusive<N::Addr>,
) -> (Option<RangeBlocks<CoreV4>>, Option<RangeBlocks<CoreV6>>) {
    let is_empty = range.is_empty();
    match (
        N::either_address(*range.start()),
        N::either_address(*range.end()),
    ) {
        (IpAddr::V4(first), IpAddr::V4(last)) if !is_empty => {
            (range_to_blocks(asked_v4(first), asked_v4(last)), None)
        }
        (IpAddr::V6(first), IpAddr::V6(last)) if !is_empty => {
            (None, range_to_blocks(asked_v6(first), asked_v6(last)))
        }
        (IpAddr::V4(_), IpAddr::V4(_)) | (IpAddr::V6(_), IpAddr::V6(_)) => (None, None),
        (first, last) => panic!("the range {first}..={last} has ends of two address families"),
    }
}
