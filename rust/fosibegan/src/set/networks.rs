//! The networks of a set, one after the other.

use crate::convert::{CoreV4, CoreV6};
use crate::network::sealed::Here;
use crate::{AddressSet, IpNetwork, Ipv4Network, Ipv6Network, Network};
use alloc::vec;
use core::fmt;
use core::iter::{Copied, FusedIterator};
use core::marker::PhantomData;
use core::slice;

/// An iterator over the networks of an [`AddressSet`], in ascending order, IPv4 first: what
/// [`AddressSet::networks`] returns.
///
/// It knows its length, goes in both directions, and skips in constant time (`nth`, `nth_back`).
///
/// # Examples
///
/// ```
/// use fosibegan::{AddressSet, IpNetwork};
/// use fosibegan::address_set::Networks;
///
/// let set = AddressSet::from(["10.0.0.0/8".parse::<IpNetwork>()?, "2001:db8::/32".parse()?]);
/// let mut networks: Networks<'_> = set.networks();
/// assert_eq!(networks.len(), 2);
/// assert_eq!(networks.next_back(), Some("2001:db8::/32".parse()?));
/// # Ok::<(), Box<dyn std::error::Error>>(())
/// ```
#[derive(Clone)]
#[must_use = "iterators are lazy and do nothing unless consumed"]
pub struct Networks<'a, N: Network = IpNetwork> {
    v4: Copied<slice::Iter<'a, CoreV4>>,
    v6: Copied<slice::Iter<'a, CoreV6>>,
    family: PhantomData<N>,
}

/// An owning iterator over the networks of an [`AddressSet`], in ascending order, IPv4 first: what
/// [`into_iter`](IntoIterator::into_iter) of a set returns.
///
/// # Examples
///
/// ```
/// use fosibegan::{AddressSet, IpNetwork};
/// use fosibegan::address_set::IntoNetworks;
///
/// let set = AddressSet::from(["10.0.0.0/8".parse::<IpNetwork>()?]);
/// let mut networks: IntoNetworks = set.into_iter();
/// assert_eq!(networks.next(), Some("10.0.0.0/8".parse()?));
/// assert_eq!(networks.next(), None);
/// # Ok::<(), Box<dyn std::error::Error>>(())
/// ```
#[derive(Clone)]
#[must_use = "iterators are lazy and do nothing unless consumed"]
pub struct IntoNetworks<N: Network = IpNetwork> {
    v4: vec::IntoIter<CoreV4>,
    v6: vec::IntoIter<CoreV6>,
    family: PhantomData<N>,
}

impl<N: Network> AddressSet<N> {
    /// Returns an iterator over the networks of the set: the fewest that contain exactly its
    /// addresses, in ascending order, IPv4 first.
    ///
    /// # Examples
    ///
    /// ```
    /// use fosibegan::{AddressSet, IpNetwork};
    ///
    /// let set: AddressSet =
    ///     ["2001:db8::/32".parse::<IpNetwork>()?, "10.128.0.0/9".parse()?, "10.0.0.0/9".parse()?].into();
    /// let texts: Vec<String> = set.networks().map(|network| network.to_string()).collect();
    /// assert_eq!(texts, ["10.0.0.0/8", "2001:db8::/32"]);
    /// # Ok::<(), Box<dyn std::error::Error>>(())
    /// ```
    pub fn networks(&self) -> Networks<'_, N> {
        Networks {
            v4: self.v4.blocks().iter().copied(),
            v6: self.v6.blocks().iter().copied(),
            family: PhantomData,
        }
    }

    /// Returns an iterator over the networks of the set, as [`networks`](Self::networks) does.
    ///
    /// # Examples
    ///
    /// ```
    /// use fosibegan::{AddressSet, IpNetwork};
    ///
    /// let set = AddressSet::from(["10.0.0.0/8".parse::<IpNetwork>()?]);
    /// assert!(set.iter().eq(&set));
    /// # Ok::<(), Box<dyn std::error::Error>>(())
    /// ```
    pub fn iter(&self) -> Networks<'_, N> {
        self.networks()
    }
}

impl<'a, N: Network> IntoIterator for &'a AddressSet<N> {
    type Item = N;
    type IntoIter = Networks<'a, N>;

    fn into_iter(self) -> Networks<'a, N> {
        self.networks()
    }
}

impl<N: Network> IntoIterator for AddressSet<N> {
    type Item = N;
    type IntoIter = IntoNetworks<N>;

    fn into_iter(self) -> IntoNetworks<N> {
        IntoNetworks {
            v4: self.v4.into_blocks().into_iter(),
            v6: self.v6.into_blocks().into_iter(),
            family: PhantomData,
        }
    }
}

fn of_v4<N: Network>(network: CoreV4) -> N {
    N::of_v4(Ipv4Network::from_core(network), Here(()))
}

fn of_v6<N: Network>(network: CoreV6) -> N {
    N::of_v6(Ipv6Network::from_core(network), Here(()))
}

/// What both iterators have.
macro_rules! networks {
    ($name:ident $(of $life:lifetime)?) => {
        impl<N: Network> Iterator for $name<$($life,)? N> {
            type Item = N;

            #[inline]
            fn next(&mut self) -> Option<N> {
                match self.v4.next() {
                    Some(network) => Some(of_v4(network)),
                    None => self.v6.next().map(of_v6),
                }
            }

            fn nth(&mut self, n: usize) -> Option<N> {
                let ahead = self.v4.len();
                match self.v4.nth(n) {
                    Some(network) => Some(of_v4(network)),
                    None => self.v6.nth(n - ahead).map(of_v6),
                }
            }

            fn size_hint(&self) -> (usize, Option<usize>) {
                let len = self.v4.len() + self.v6.len();
                (len, Some(len))
            }

            fn fold<B, F: FnMut(B, N) -> B>(self, init: B, mut f: F) -> B {
                let init = self.v4.fold(init, |all, network| f(all, of_v4(network)));
                self.v6.fold(init, |all, network| f(all, of_v6(network)))
            }

            fn count(self) -> usize {
                self.len()
            }

            fn last(mut self) -> Option<N> {
                self.next_back()
            }
        }

        impl<N: Network> DoubleEndedIterator for $name<$($life,)? N> {
            #[inline]
            fn next_back(&mut self) -> Option<N> {
                match self.v6.next_back() {
                    Some(network) => Some(of_v6(network)),
                    None => self.v4.next_back().map(of_v4),
                }
            }

            fn nth_back(&mut self, n: usize) -> Option<N> {
                let after = self.v6.len();
                match self.v6.nth_back(n) {
                    Some(network) => Some(of_v6(network)),
                    None => self.v4.nth_back(n - after).map(of_v4),
                }
            }
        }

        impl<N: Network> ExactSizeIterator for $name<$($life,)? N> {}

        impl<N: Network> FusedIterator for $name<$($life,)? N> {}

        impl<N: Network> fmt::Debug for $name<$($life,)? N> {
            fn fmt(&self, f: &mut fmt::Formatter<'_>) -> fmt::Result {
                f.debug_list().entries(self.clone()).finish()
            }
        }
    };
}

networks!(Networks of '_);
networks!(IntoNetworks);

impl<N: Network> Default for Networks<'_, N> {
    /// Creates an iterator over no networks.
    fn default() -> Self {
        Networks {
            v4: [].iter().copied(),
            v6: [].iter().copied(),
            family: PhantomData,
        }
    }
}
