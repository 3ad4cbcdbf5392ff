//! Iterators over the networks of one prefix length in a network.

use super::sealed::Here;
use crate::{IpNetwork, Ipv4Network, Ipv6Network, Network};
use core::iter::FusedIterator;
use core::ops::RangeInclusive;
use fosibegan_core::subnet_at;

/// An iterator over the networks of one prefix length that are in a network, in ascending order.
///
/// It is made by the method `subnets` of a network. It also goes backward, and it skips networks in
/// constant time.
///
/// # Examples
///
/// ```
/// use fosibegan::{Ipv4Network, Subnets};
///
/// let network: Ipv4Network = "10.0.0.0/8".parse()?;
/// let mut subnets: Subnets<Ipv4Network> = network.subnets(16).unwrap();
/// assert_eq!(subnets.next(), Some("10.0.0.0/16".parse()?));
/// assert_eq!(subnets.nth(8), Some("10.9.0.0/16".parse()?));
/// assert_eq!(subnets.next_back(), Some("10.255.0.0/16".parse()?));
/// # Ok::<(), Box<dyn std::error::Error>>(())
/// ```
#[derive(Clone, Debug)]
#[must_use = "iterators are lazy and do nothing unless consumed"]
pub struct Subnets<N: Network> {
    network: N,
    prefix: u8,
    /// The numbers of those that are left, counted from 0 in this order.
    numbers: RangeInclusive<u128>,
}

impl<N: Network> Subnets<N> {
    /// The networks of a prefix length in this one, if there are any.
    pub(super) fn new(network: N, prefix: u8) -> Option<Self> {
        let (own, width) = match network.either() {
            IpNetwork::V4(network) => (network.prefix(), Ipv4Network::WIDTH),
            IpNetwork::V6(network) => (network.prefix(), Ipv6Network::WIDTH),
        };
        if prefix > width {
            return None;
        }
        let last = match prefix.checked_sub(own)? {
            0 => 0,
            bits => u128::MAX >> (128 - bits),
        };
        Some(Self {
            network,
            prefix,
            numbers: 0..=last,
        })
    }

    /// The one with this number, which is one of its numbers.
    #[inline]
    fn at(&self, number: u128) -> Option<N> {
        match self.network.either() {
            IpNetwork::V4(network) => subnet_at(network.asked(), self.prefix, number)
                .map(|network| N::of_v4(Ipv4Network::from_core(network), Here(()))),
            IpNetwork::V6(network) => subnet_at(network.asked(), self.prefix, number)
                .map(|network| N::of_v6(Ipv6Network::from_core(network), Here(()))),
        }
    }
}

impl<N: Network> Iterator for Subnets<N> {
    type Item = N;

    #[inline]
    fn next(&mut self) -> Option<N> {
        let number = self.numbers.next()?;
        self.at(number)
    }

    #[inline]
    fn nth(&mut self, n: usize) -> Option<N> {
        let number = self.numbers.nth(n)?;
        self.at(number)
    }

    fn size_hint(&self) -> (usize, Option<usize>) {
        self.numbers.size_hint()
    }

    fn count(self) -> usize {
        self.size_hint()
            .1
            .expect("the number of networks does not fit in a usize")
    }

    fn last(mut self) -> Option<N> {
        self.next_back()
    }

    fn min(mut self) -> Option<N> {
        self.next()
    }

    fn max(mut self) -> Option<N> {
        self.next_back()
    }
}

impl<N: Network> DoubleEndedIterator for Subnets<N> {
    #[inline]
    fn next_back(&mut self) -> Option<N> {
        let number = self.numbers.next_back()?;
        self.at(number)
    }

    #[inline]
    fn nth_back(&mut self, n: usize) -> Option<N> {
        let number = self.numbers.nth_back(n)?;
        self.at(number)
    }
}

impl<N: Network> FusedIterator for Subnets<N> {}
