//! What two sets have in common and how they differ, network by network.

use super::in_order::InOrder;
use crate::convert::{CoreV4, CoreV6};
use crate::{AddressSet, IpNetwork, Network};
use core::fmt;
use core::iter::FusedIterator;
use core::marker::PhantomData;
use fosibegan_core as library;

/// An iterator over the networks of the addresses that are in one of two sets or in both: what
/// [`AddressSet::union`] returns.
///
/// # Examples
///
/// ```
/// use fosibegan::{AddressSet, IpNetwork};
/// use fosibegan::address_set::Union;
///
/// let lower = AddressSet::from(["10.0.0.0/9".parse::<IpNetwork>()?]);
/// let upper = AddressSet::from(["10.128.0.0/9".parse::<IpNetwork>()?]);
/// let mut both: Union<'_> = lower.union(&upper);
/// assert_eq!(both.next(), Some("10.0.0.0/8".parse()?));
/// # Ok::<(), Box<dyn std::error::Error>>(())
/// ```
#[derive(Clone)]
#[must_use = "iterators are lazy and do nothing unless consumed"]
pub struct Union<'a, N: Network = IpNetwork> {
    networks: InOrder<library::Union<'a, CoreV4>, library::Union<'a, CoreV6>>,
    family: PhantomData<N>,
}

/// An iterator over the networks of the addresses that are in both of two sets: what
/// [`AddressSet::intersection`] returns.
///
/// # Examples
///
/// ```
/// use fosibegan::{AddressSet, IpNetwork};
/// use fosibegan::address_set::Intersection;
///
/// let private = AddressSet::from(["10.0.0.0/8".parse::<IpNetwork>()?]);
/// let used = AddressSet::from(["10.1.0.0/16".parse::<IpNetwork>()?, "192.0.2.0/24".parse()?]);
/// let mut both: Intersection<'_> = private.intersection(&used);
/// assert_eq!(both.next(), Some("10.1.0.0/16".parse()?));
/// assert_eq!(both.next(), None);
/// # Ok::<(), Box<dyn std::error::Error>>(())
/// ```
#[derive(Clone)]
#[must_use = "iterators are lazy and do nothing unless consumed"]
pub struct Intersection<'a, N: Network = IpNetwork> {
    networks: InOrder<library::Intersection<'a, CoreV4>, library::Intersection<'a, CoreV6>>,
    family: PhantomData<N>,
}

/// An iterator over the networks of the addresses that are in one set and not in another: what
/// [`AddressSet::difference`] returns.
///
/// # Examples
///
/// ```
/// use fosibegan::{AddressSet, IpNetwork};
/// use fosibegan::address_set::Difference;
///
/// let private = AddressSet::from(["10.0.0.0/8".parse::<IpNetwork>()?]);
/// let used = AddressSet::from(["10.0.0.0/9".parse::<IpNetwork>()?]);
/// let mut left: Difference<'_> = private.difference(&used);
/// assert_eq!(left.next(), Some("10.128.0.0/9".parse()?));
/// # Ok::<(), Box<dyn std::error::Error>>(())
/// ```
#[derive(Clone)]
#[must_use = "iterators are lazy and do nothing unless consumed"]
pub struct Difference<'a, N: Network = IpNetwork> {
    networks: InOrder<library::Difference<'a, CoreV4>, library::Difference<'a, CoreV6>>,
    family: PhantomData<N>,
}

/// An iterator over the networks of the addresses that are not in a set: what
/// [`AddressSet::complement`] returns.
///
/// # Examples
///
/// ```
/// use fosibegan::{AddressSet, IpNetwork};
/// use fosibegan::address_set::Complement;
///
/// let set = AddressSet::from(["0.0.0.0/1".parse::<IpNetwork>()?]);
/// let mut others: Complement<'_> = set.complement();
/// assert_eq!(others.next(), Some("128.0.0.0/1".parse()?));
/// assert_eq!(others.next(), Some("::/0".parse()?));
/// # Ok::<(), Box<dyn std::error::Error>>(())
/// ```
#[derive(Clone)]
#[must_use = "iterators are lazy and do nothing unless consumed"]
pub struct Complement<'a, N: Network = IpNetwork> {
    networks: InOrder<library::Difference<'a, CoreV4>, library::Difference<'a, CoreV6>>,
    family: PhantomData<N>,
}

impl<N: Network> AddressSet<N> {
    /// Returns an iterator over the union: the fewest networks that contain exactly the addresses
    /// that are in this set, in `other`, or in both, in ascending order, IPv4 first. It goes over
    /// both lists once, as it advances.
    ///
    /// As a set, this is `&set | &other`.
    ///
    /// # Examples
    ///
    /// ```
    /// use fosibegan::{AddressSet, IpNetwork};
    ///
    /// let office = AddressSet::from(["192.0.2.0/25".parse::<IpNetwork>()?]);
    /// let guests = AddressSet::from(["192.0.2.128/25".parse::<IpNetwork>()?]);
    /// assert!(office.union(&guests).eq(["192.0.2.0/24".parse()?]));
    /// # Ok::<(), Box<dyn std::error::Error>>(())
    /// ```
    pub fn union<'a>(&'a self, other: &'a Self) -> Union<'a, N> {
        let most = self.len().checked_add(other.len());
        let (v4, v6) = (
            self.v4.union_blocks(&other.v4),
            self.v6.union_blocks(&other.v6),
        );
        Union {
            networks: InOrder::new(Some(v4), Some(v6), most),
            family: PhantomData,
        }
    }

    /// Returns an iterator over the intersection: the fewest networks that contain exactly the
    /// addresses that are in both sets, in ascending order, IPv4 first. It goes over both lists
    /// once, as it advances.
    ///
    /// As a set, this is `&set & &other`.
    ///
    /// # Examples
    ///
    /// ```
    /// use fosibegan::{AddressSet, IpNetwork};
    ///
    /// let office = AddressSet::from(["192.0.2.0/24".parse::<IpNetwork>()?]);
    /// let seen = AddressSet::from(["192.0.2.7".parse::<IpNetwork>()?, "10.0.0.1".parse()?]);
    /// assert!(office.intersection(&seen).eq(["192.0.2.7/32".parse()?]));
    /// # Ok::<(), Box<dyn std::error::Error>>(())
    /// ```
    pub fn intersection<'a>(&'a self, other: &'a Self) -> Intersection<'a, N> {
        let most = self.len().checked_add(other.len());
        let (v4, v6) = (
            self.v4.intersection(&other.v4),
            self.v6.intersection(&other.v6),
        );
        Intersection {
            networks: InOrder::new(Some(v4), Some(v6), most),
            family: PhantomData,
        }
    }

    /// Returns an iterator over the difference: the fewest networks that contain exactly the
    /// addresses that are in this set and not in `other`, in ascending order, IPv4 first. It goes
    /// over both lists once, as it advances.
    ///
    /// As a set, this is `&set - &other`.
    ///
    /// # Examples
    ///
    /// ```
    /// use fosibegan::{AddressSet, IpNetwork};
    ///
    /// let allowed = AddressSet::from(["192.0.2.0/24".parse::<IpNetwork>()?]);
    /// let denied = AddressSet::from(["192.0.2.64/26".parse::<IpNetwork>()?]);
    /// let left = ["192.0.2.0/26".parse()?, "192.0.2.128/25".parse()?];
    /// assert!(allowed.difference(&denied).eq(left));
    /// # Ok::<(), Box<dyn std::error::Error>>(())
    /// ```
    pub fn difference<'a>(&'a self, other: &'a Self) -> Difference<'a, N> {
        let most = most_after_cuts(self.len(), other);
        let (v4, v6) = (self.v4.difference(&other.v4), self.v6.difference(&other.v6));
        Difference {
            networks: InOrder::new(Some(v4), Some(v6), most),
            family: PhantomData,
        }
    }

    /// Returns an iterator over the complement: the fewest networks that contain exactly the
    /// addresses that are not in the set, in ascending order, IPv4 first. For a set of one family
    /// these are addresses of that family; for an `AddressSet<IpNetwork>`, of both.
    ///
    /// As a set, this is `!&set`. **The complement of an empty set contains every address.**
    ///
    /// # Examples
    ///
    /// ```
    /// use fosibegan::{AddressSet, Ipv4Network};
    ///
    /// let set: AddressSet<Ipv4Network> = ["128.0.0.0/2".parse::<Ipv4Network>()?].into();
    /// assert!(set.complement().eq(["0.0.0.0/1".parse()?, "192.0.0.0/2".parse()?]));
    /// # Ok::<(), Box<dyn std::error::Error>>(())
    /// ```
    pub fn complement(&self) -> Complement<'_, N> {
        let v4 = N::HAS_V4.then(|| self.v4.complement());
        let v6 = N::HAS_V6.then(|| self.v6.complement());
        Complement {
            networks: InOrder::new(v4, v6, most_after_cuts(2, self)),
            family: PhantomData,
        }
    }
}

/// The most networks that are left of `len` others without the addresses of a set: one that is cut
/// out of another leaves less than one for each bit of an address.
pub(super) fn most_after_cuts<N: Network>(len: usize, cut: &AddressSet<N>) -> Option<usize> {
    let v4 = cut.v4.blocks().len().checked_mul(32)?;
    let v6 = cut.v6.blocks().len().checked_mul(128)?;
    len.checked_add(v4)?.checked_add(v6)
}

/// What the iterators of this module and of `free` have, by what they hold.
macro_rules! lazy {
    ($name:ident) => {
        impl<N: Network> Iterator for $name<'_, N> {
            type Item = N;

            #[inline]
            fn next(&mut self) -> Option<N> {
                self.networks.next()
            }

            fn size_hint(&self) -> (usize, Option<usize>) {
                self.networks.size_hint()
            }
        }

        impl<N: Network> FusedIterator for $name<'_, N> {}

        impl<N: Network> fmt::Debug for $name<'_, N> {
            fn fmt(&self, f: &mut fmt::Formatter<'_>) -> fmt::Result {
                f.debug_list().entries(self.clone()).finish()
            }
        }
    };
}

pub(super) use lazy;

lazy!(Union);
lazy!(Intersection);
lazy!(Difference);
lazy!(Complement);
