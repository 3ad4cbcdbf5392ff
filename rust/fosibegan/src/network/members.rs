//! Iterators over the addresses of a network.

use core::iter::FusedIterator;
use core::net::{IpAddr, Ipv4Addr, Ipv6Addr};

/// The iterator of one family, over the numbers of its addresses.
macro_rules! family {
    ($(#[$doc:meta])* $name:ident: $address:ident, $number:ident) => {
        $(#[$doc])*
        #[derive(Clone, Debug)]
        #[must_use = "iterators are lazy and do nothing unless consumed"]
        pub struct $name {
            /// The number of the first address that is left, if one is.
            next: Option<$number>,
            /// The number of the last one.
            end: $number,
        }

        impl $name {
            /// The addresses from one number to another, which must not be less.
            #[inline]
            pub(super) const fn between(first: $number, last: $number) -> Self {
                Self { next: Some(first), end: last }
            }
        }

        impl Iterator for $name {
            type Item = $address;

            #[inline]
            fn next(&mut self) -> Option<$address> {
                let first = self.next?;
                self.next = if first == self.end { None } else { Some(first + 1) };
                Some($address::from_bits(first))
            }

            #[inline]
            fn nth(&mut self, n: usize) -> Option<$address> {
                let first = self.next?;
                let skipped = $number::try_from(n).ok();
                self.next = skipped
                    .and_then(|skipped| first.checked_add(skipped))
                    .filter(|first| *first <= self.end);
                self.next()
            }

            fn size_hint(&self) -> (usize, Option<usize>) {
                let Some(first) = self.next else { return (0, Some(0)) };
                let more = usize::try_from(self.end - first).ok();
                match more.and_then(|more| more.checked_add(1)) {
                    Some(count) => (count, Some(count)),
                    None => (usize::MAX, None),
                }
            }

            fn count(self) -> usize {
                self.size_hint().1.expect("the number of addresses does not fit in a usize")
            }

            fn last(mut self) -> Option<$address> {
                self.next_back()
            }

            fn min(mut self) -> Option<$address> {
                self.next()
            }

            fn max(mut self) -> Option<$address> {
                self.next_back()
            }
        }

        impl DoubleEndedIterator for $name {
            #[inline]
            fn next_back(&mut self) -> Option<$address> {
                let (first, last) = (self.next?, self.end);
                if first == last {
                    self.next = None;
                } else {
                    self.end = last - 1;
                }
                Some($address::from_bits(last))
            }

            #[inline]
            fn nth_back(&mut self, n: usize) -> Option<$address> {
                let first = self.next?;
                let skipped = $number::try_from(n).ok();
                match skipped.and_then(|skipped| self.end.checked_sub(skipped)) {
                    Some(last) if first <= last => self.end = last,
                    _ => self.next = None,
                }
                self.next_back()
            }
        }

        impl FusedIterator for $name {}
    };
}

family!(
    /// An iterator over the addresses of an IPv4 network, in ascending order.
    ///
    /// It also goes backward, and it skips addresses in constant time.
    ///
    /// # Examples
    ///
    /// ```
    /// use fosibegan::{Ipv4Network, Ipv4NetworkIterator};
    /// use std::net::Ipv4Addr;
    ///
    /// let network: Ipv4Network = "10.0.0.0/8".parse()?;
    /// let mut addrs: Ipv4NetworkIterator = network.iter();
    /// assert_eq!(addrs.next(), Some(Ipv4Addr::new(10, 0, 0, 0)));
    /// assert_eq!(addrs.nth(65_534), Some(Ipv4Addr::new(10, 0, 255, 255)));
    /// assert_eq!(addrs.next_back(), Some(Ipv4Addr::new(10, 255, 255, 255)));
    /// # Ok::<(), Box<dyn std::error::Error>>(())
    /// ```
    Ipv4NetworkIterator: Ipv4Addr, u32
);

family!(
    /// An iterator over the addresses of an IPv6 network, in ascending order.
    ///
    /// It also goes backward, and it skips addresses in constant time.
    ///
    /// # Examples
    ///
    /// ```
    /// use fosibegan::{Ipv6Network, Ipv6NetworkIterator};
    ///
    /// let network: Ipv6Network = "2001:db8::/64".parse()?;
    /// let mut addrs: Ipv6NetworkIterator = network.iter();
    /// assert_eq!(addrs.next(), Some("2001:db8::".parse()?));
    /// assert_eq!(addrs.nth(65_534), Some("2001:db8::ffff".parse()?));
    /// assert_eq!(addrs.next_back(), Some("2001:db8::ffff:ffff:ffff:ffff".parse()?));
    /// # Ok::<(), Box<dyn std::error::Error>>(())
    /// ```
    Ipv6NetworkIterator: Ipv6Addr, u128
);

#[derive(Clone, Debug)]
enum Inner {
    V4(Ipv4NetworkIterator),
    V6(Ipv6NetworkIterator),
}

/// An iterator over the addresses of a network of either family, in ascending order.
///
/// It also goes backward, and it skips addresses in constant time.
///
/// # Examples
///
/// ```
/// use fosibegan::{IpNetwork, IpNetworkIterator};
///
/// let network: IpNetwork = "2001:db8::/64".parse()?;
/// let mut addrs: IpNetworkIterator = network.iter();
/// assert_eq!(addrs.nth(65_535), Some("2001:db8::ffff".parse()?));
/// assert_eq!(addrs.next_back(), Some("2001:db8::ffff:ffff:ffff:ffff".parse()?));
/// # Ok::<(), Box<dyn std::error::Error>>(())
/// ```
#[derive(Clone, Debug)]
#[must_use = "iterators are lazy and do nothing unless consumed"]
pub struct IpNetworkIterator {
    inner: Inner,
}

impl IpNetworkIterator {
    #[inline]
    pub(super) const fn of_v4(addrs: Ipv4NetworkIterator) -> Self {
        Self {
            inner: Inner::V4(addrs),
        }
    }

    #[inline]
    pub(super) const fn of_v6(addrs: Ipv6NetworkIterator) -> Self {
        Self {
            inner: Inner::V6(addrs),
        }
    }
}

impl Iterator for IpNetworkIterator {
    type Item = IpAddr;

    #[inline]
    fn next(&mut self) -> Option<IpAddr> {
        match &mut self.inner {
            Inner::V4(addrs) => addrs.next().map(IpAddr::V4),
            Inner::V6(addrs) => addrs.next().map(IpAddr::V6),
        }
    }

    #[inline]
    fn nth(&mut self, n: usize) -> Option<IpAddr> {
        match &mut self.inner {
            Inner::V4(addrs) => addrs.nth(n).map(IpAddr::V4),
            Inner::V6(addrs) => addrs.nth(n).map(IpAddr::V6),
        }
    }

    fn size_hint(&self) -> (usize, Option<usize>) {
        match &self.inner {
            Inner::V4(addrs) => addrs.size_hint(),
            Inner::V6(addrs) => addrs.size_hint(),
        }
    }

    fn count(self) -> usize {
        match self.inner {
            Inner::V4(addrs) => addrs.count(),
            Inner::V6(addrs) => addrs.count(),
        }
    }

    fn last(mut self) -> Option<IpAddr> {
        self.next_back()
    }

    fn min(mut self) -> Option<IpAddr> {
        self.next()
    }

    fn max(mut self) -> Option<IpAddr> {
        self.next_back()
    }
}

impl DoubleEndedIterator for IpNetworkIterator {
    #[inline]
    fn next_back(&mut self) -> Option<IpAddr> {
        match &mut self.inner {
            Inner::V4(addrs) => addrs.next_back().map(IpAddr::V4),
            Inner::V6(addrs) => addrs.next_back().map(IpAddr::V6),
        }
    }

    #[inline]
    fn nth_back(&mut self, n: usize) -> Option<IpAddr> {
        match &mut self.inner {
            Inner::V4(addrs) => addrs.nth_back(n).map(IpAddr::V4),
            Inner::V6(addrs) => addrs.nth_back(n).map(IpAddr::V6),
        }
    }
}

impl FusedIterator for IpNetworkIterator {}
