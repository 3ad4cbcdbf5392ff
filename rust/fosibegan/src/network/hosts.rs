//! Iterators over the hosts of a network.

use super::sealed::Here;
use crate::{IpNetwork, IpNetworkIterator, Ipv4NetworkIterator, Ipv6NetworkIterator, Network};
use core::fmt;
use core::iter::FusedIterator;
use core::marker::PhantomData;
use core::net::IpAddr;

/// An iterator over the addresses that hosts of a network can have, in ascending order.
///
/// It is made by the method `hosts` of a network. It also goes backward, and it skips addresses in
/// constant time.
///
/// # Examples
///
/// ```
/// use fosibegan::{Hosts, Ipv4Network};
/// use std::net::Ipv4Addr;
///
/// let network: Ipv4Network = "192.0.2.0/24".parse()?;
/// let mut hosts: Hosts<Ipv4Network> = network.hosts();
/// assert_eq!(hosts.size_hint(), (254, Some(254)));
/// assert_eq!(hosts.next(), Some(Ipv4Addr::new(192, 0, 2, 1)));
/// assert_eq!(hosts.next_back(), Some(Ipv4Addr::new(192, 0, 2, 254)));
/// # Ok::<(), Box<dyn std::error::Error>>(())
/// ```
#[derive(Clone)]
#[must_use = "iterators are lazy and do nothing unless consumed"]
pub struct Hosts<N: Network> {
    addrs: IpNetworkIterator,
    family: PhantomData<N>,
}

impl<N: Network> Hosts<N> {
    /// The hosts of a network.
    pub(super) fn new(network: N) -> Self {
        let addrs = match network.either() {
            IpNetwork::V4(network) => {
                let reserved = u32::from(network.prefix() <= 30);
                let (first, last) = (network.first() + reserved, network.last() - reserved);
                IpNetworkIterator::of_v4(Ipv4NetworkIterator::between(first, last))
            }
            IpNetwork::V6(network) => {
                let reserved = u128::from(network.prefix() <= 126);
                let (first, last) = (network.first() + reserved, network.last());
                IpNetworkIterator::of_v6(Ipv6NetworkIterator::between(first, last))
            }
        };
        Self {
            addrs,
            family: PhantomData,
        }
    }

    /// The address as networks of this type have it.
    #[inline]
    fn addr(addr: IpAddr) -> N::Addr {
        match addr {
            IpAddr::V4(addr) => N::address_of_v4(addr, Here(())),
            IpAddr::V6(addr) => N::address_of_v6(addr, Here(())),
        }
    }
}

impl<N: Network> fmt::Debug for Hosts<N> {
    fn fmt(&self, f: &mut fmt::Formatter<'_>) -> fmt::Result {
        f.debug_tuple("Hosts").field(&self.addrs).finish()
    }
}

impl<N: Network> Iterator for Hosts<N> {
    type Item = N::Addr;

    #[inline]
    fn next(&mut self) -> Option<N::Addr> {
        self.addrs.next().map(Self::addr)
    }

    #[inline]
    fn nth(&mut self, n: usize) -> Option<N::Addr> {
        self.addrs.nth(n).map(Self::addr)
    }

    fn size_hint(&self) -> (usize, Option<usize>) {
        self.addrs.size_hint()
    }

    fn count(self) -> usize {
        self.addrs.count()
    }

    fn last(mut self) -> Option<N::Addr> {
        self.next_back()
    }

    fn min(mut self) -> Option<N::Addr> {
        self.next()
    }

    fn max(mut self) -> Option<N::Addr> {
        self.next_back()
    }
}

impl<N: Network> DoubleEndedIterator for Hosts<N> {
    #[inline]
    fn next_back(&mut self) -> Option<N::Addr> {
        self.addrs.next_back().map(Self::addr)
    }

    #[inline]
    fn nth_back(&mut self, n: usize) -> Option<N::Addr> {
        self.addrs.nth_back(n).map(Self::addr)
    }
}

impl<N: Network> FusedIterator for Hosts<N> {}
