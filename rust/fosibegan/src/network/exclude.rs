//! Iterators over what is left of a network without another.

use super::sealed::Here;
use crate::convert::{CoreV4, CoreV6};
use crate::{IpNetwork, Ipv4Network, Ipv6Network, Network};
use core::fmt;
use core::iter::FusedIterator;
use core::marker::PhantomData;
use fosibegan_core::{Exclusion, exclude};

/// An iterator over the fewest networks that contain exactly the addresses of one network that are
/// not in another, in ascending order.
///
/// It is made by the method `exclude` of a network.
///
/// # Examples
///
/// ```
/// use fosibegan::{Exclude, Ipv4Network};
///
/// let network: Ipv4Network = "10.0.0.0/8".parse()?;
/// let mut left: Exclude<Ipv4Network> = network.exclude("10.64.0.0/10".parse()?);
/// assert_eq!(left.len(), 2);
/// assert_eq!(left.next(), Some("10.0.0.0/10".parse()?));
/// assert_eq!(left.next(), Some("10.128.0.0/9".parse()?));
/// assert_eq!(left.next(), None);
/// # Ok::<(), Box<dyn std::error::Error>>(())
/// ```
#[derive(Clone)]
#[must_use = "iterators are lazy and do nothing unless consumed"]
pub struct Exclude<N: Network> {
    inner: Inner,
    /// How many are left.
    len: usize,
    family: PhantomData<N>,
}

#[derive(Clone)]
enum Inner {
    V4(Exclusion<CoreV4>),
    V6(Exclusion<CoreV6>),
    /// Of two families: all of the first network, once.
    Whole(IpNetwork),
}

impl<N: Network> Exclude<N> {
    /// What is left of a network without another.
    pub(super) fn new(network: N, other: N) -> Self {
        let (network, other) = (network.either(), other.either());
        let inner = match (network, other) {
            (IpNetwork::V4(network), IpNetwork::V4(other)) => {
                Inner::V4(exclude(network.asked(), other.asked()))
            }
            (IpNetwork::V6(network), IpNetwork::V6(other)) => {
                Inner::V6(exclude(network.asked(), other.asked()))
            }
            _ => Inner::Whole(network.block()),
        };
        Self {
            inner,
            len: count(network, other),
            family: PhantomData,
        }
    }
}

/// How many networks are left of the first without the second: of two that overlap, one for each
/// bit that the prefix length of the second is longer.
fn count(network: IpNetwork, other: IpNetwork) -> usize {
    if network.overlaps(other) {
        other.prefix().saturating_sub(network.prefix()).into()
    } else {
        1
    }
}

impl<N: Network> fmt::Debug for Exclude<N> {
    fn fmt(&self, f: &mut fmt::Formatter<'_>) -> fmt::Result {
        f.write_str("Exclude")?;
        f.debug_list().entries(self.clone()).finish()
    }
}

impl<N: Network> Iterator for Exclude<N> {
    type Item = N;

    fn next(&mut self) -> Option<N> {
        self.len = self.len.checked_sub(1)?;
        match &mut self.inner {
            Inner::V4(blocks) => blocks
                .next()
                .map(|block| N::of_v4(Ipv4Network::from_core(block), Here(()))),
            Inner::V6(blocks) => blocks
                .next()
                .map(|block| N::of_v6(Ipv6Network::from_core(block), Here(()))),
            Inner::Whole(IpNetwork::V4(network)) => Some(N::of_v4(*network, Here(()))),
            Inner::Whole(IpNetwork::V6(network)) => Some(N::of_v6(*network, Here(()))),
        }
    }

    fn size_hint(&self) -> (usize, Option<usize>) {
        (self.len, Some(self.len))
    }
}

impl<N: Network> ExactSizeIterator for Exclude<N> {}

impl<N: Network> FusedIterator for Exclude<N> {}
