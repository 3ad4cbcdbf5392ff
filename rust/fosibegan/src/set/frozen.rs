//! Sets that do not change.

use super::addresses::Addresses;
use crate::convert::{CoreV4, CoreV6, asked_v4, asked_v6, or_abort};
use crate::{AddressSet, IpNetwork, Network};
use core::cmp::Ordering;
use core::fmt;
use core::hash::{Hash, Hasher};
use core::net::IpAddr;
use fosibegan_core::AddressIndex;
use fosibegan_core::plain_std::alloc::Global;

/// A set of IP addresses that does not change and answers fastest.
///
/// It is made by [`AddressSet::freeze`], by `FrozenSet::from(&set)`, or by collecting an iterator.
/// [`as_set`](Self::as_set) has the set for everything else than `contains`. To change it, change a
/// copy of that, or what [`into_set`](Self::into_set) returns, and freeze it again, which takes about
/// as long as copying the set a few times.
///
/// ```
/// use fosibegan::{FrozenSet, IpNetwork};
/// use std::net::IpAddr;
///
/// let texts = ["10.0.0.0/8", "2001:db8::/32"];
/// let allowed =
///     texts.iter().map(|text| text.parse::<IpNetwork>()).collect::<Result<FrozenSet, _>>()?;
///
/// let client: IpAddr = "::ffff:10.1.2.3".parse()?;
/// assert!(allowed.contains(client.to_canonical()));
/// # Ok::<(), Box<dyn std::error::Error>>(())
/// ```
///
/// As with an [`AddressSet`](AddressSet#ipv4-mapped-addresses), an IPv4-mapped address such as
/// `::ffff:10.1.2.3` is an IPv6 address: use `contains(addr.to_canonical())`, or, for a deny list,
/// [`contains_mapped`](FrozenSet::contains_mapped). **An empty set contains no address**, so an empty
/// deny list lets everybody in.
///
/// # Cost
///
/// [`contains`](Self::contains) takes a few reads if the networks are spread out (10 ns for 10,000
/// of them), and no longer than a binary search if they are not. In addition to the memory of the
/// set, each end of a range takes 8 to 20 bytes for IPv4, and 20 to 40 for IPv6.
#[derive(Clone)]
pub struct FrozenSet<N: Network = IpNetwork> {
    v4: AddressIndex<CoreV4>,
    v6: AddressIndex<CoreV6>,
    set: AddressSet<N>,
}

impl FrozenSet {
    /// Returns `true` if the set contains an address, or one of the two forms of an IPv4-mapped
    /// address.
    ///
    /// For an IPv4-mapped address such as `::ffff:10.1.2.3`, this is `true` if the set contains the
    /// IPv4 address (`10.1.2.3`) or the IPv6 address itself. For every other address it is
    /// the same as [`contains`](Self::contains): `10.1.2.3` itself is not looked for among mapped
    /// networks. Where it should be, pass its mapped form, `v4.to_ipv6_mapped()`.
    ///
    /// # Examples
    ///
    /// ```
    /// use fosibegan::{FrozenSet, IpNetwork};
    ///
    /// let denied = FrozenSet::from(["10.0.0.0/8".parse::<IpNetwork>()?]);
    /// assert!(denied.contains_mapped("::ffff:10.1.2.3".parse()?));
    /// assert!(!denied.contains_mapped("::ffff:11.1.2.3".parse()?));
    /// # Ok::<(), Box<dyn std::error::Error>>(())
    /// ```
    #[inline]
    #[must_use]
    pub fn contains_mapped(&self, addr: IpAddr) -> bool {
        if let IpAddr::V6(v6) = addr {
            if let Some(v4) = v6.to_ipv4_mapped() {
                return self.contains(IpAddr::V4(v4)) || self.contains(addr);
            }
        }
        self.contains(addr)
    }
}

impl<N: Network> FrozenSet<N> {
    /// Returns `true` if the set contains an address.
    ///
    /// # Examples
    ///
    /// ```
    /// use fosibegan::{FrozenSet, Ipv4Network};
    /// use std::net::Ipv4Addr;
    ///
    /// let set: FrozenSet<Ipv4Network> =
    ///     ["192.0.2.0/25".parse::<Ipv4Network>()?].into_iter().collect();
    /// assert!(set.contains(Ipv4Addr::new(192, 0, 2, 127)));
    /// assert!(!set.contains(Ipv4Addr::new(192, 0, 2, 128)));
    /// # Ok::<(), Box<dyn std::error::Error>>(())
    /// ```
    #[inline]
    #[must_use]
    pub fn contains(&self, addr: N::Addr) -> bool {
        match N::either_address(addr) {
            IpAddr::V4(addr) => self.v4.contains(asked_v4(addr)),
            IpAddr::V6(addr) => self.v6.contains(asked_v6(addr)),
        }
    }

    /// Writes to each place of `answers` whether the set contains the address at the same place of
    /// `addrs`.
    ///
    /// # Panics
    ///
    /// Panics if there are not as many answers as addresses.
    ///
    /// # Examples
    ///
    /// ```
    /// use fosibegan::{FrozenSet, Ipv4Network};
    /// use std::net::Ipv4Addr;
    ///
    /// let set: FrozenSet<Ipv4Network> =
    ///     ["192.0.2.0/25".parse::<Ipv4Network>()?].into_iter().collect();
    /// let addrs = [Ipv4Addr::new(192, 0, 2, 127), Ipv4Addr::new(192, 0, 2, 128)];
    /// let mut answers = [false; 2];
    /// set.contains_each(&addrs, &mut answers);
    /// assert_eq!(answers, [true, false]);
    /// # Ok::<(), Box<dyn std::error::Error>>(())
    /// ```
    pub fn contains_each(&self, addrs: &[N::Addr], answers: &mut [bool]) {
        assert_eq!(
            addrs.len(),
            answers.len(),
            "there are not as many answers as addresses"
        );
        for (addr, answer) in addrs.iter().zip(answers) {
            *answer = self.contains(*addr);
        }
    }

    /// Returns `true` if the set contains no address.
    ///
    /// # Examples
    ///
    /// ```
    /// use fosibegan::{AddressSet, FrozenSet, IpNetwork};
    ///
    /// let nobody = AddressSet::new().freeze();
    /// assert!(nobody.is_empty());
    /// assert!(!FrozenSet::from(["0.0.0.0/0".parse::<IpNetwork>()?]).is_empty());
    /// # Ok::<(), Box<dyn std::error::Error>>(())
    /// ```
    #[must_use]
    pub fn is_empty(&self) -> bool {
        self.set.is_empty()
    }

    /// Returns the number of networks that contain exactly the addresses of the set: as many as the
    /// [`AddressSet`] has that it was made from.
    ///
    /// # Examples
    ///
    /// ```
    /// use fosibegan::{FrozenSet, IpNetwork};
    ///
    /// let halves = ["10.0.0.0/9".parse::<IpNetwork>()?, "10.128.0.0/9".parse()?];
    /// let allowed = FrozenSet::from(halves);
    /// assert_eq!(allowed.len(), 1);
    /// # Ok::<(), Box<dyn std::error::Error>>(())
    /// ```
    #[must_use]
    pub fn len(&self) -> usize {
        self.set.len()
    }

    /// Returns the set that was frozen: its networks, and all that can be done with them.
    ///
    /// # Examples
    ///
    /// ```
    /// use fosibegan::{FrozenSet, IpNetwork};
    ///
    /// let allowed = FrozenSet::from(["10.0.0.0/8".parse::<IpNetwork>()?]);
    /// assert!(allowed.as_set().covers("10.1.0.0/16".parse()?));
    /// for network in allowed.as_set() {
    ///     println!("allowed: {network}");
    /// }
    /// # Ok::<(), Box<dyn std::error::Error>>(())
    /// ```
    #[must_use]
    pub fn as_set(&self) -> &AddressSet<N> {
        &self.set
    }

    /// Turns it into the set that was frozen. Nothing is copied.
    ///
    /// # Examples
    ///
    /// ```
    /// use fosibegan::{FrozenSet, IpNetwork};
    ///
    /// let frozen = FrozenSet::from(["10.0.0.0/8".parse::<IpNetwork>()?]);
    /// let mut set = frozen.into_set();
    /// assert!(set.insert("192.0.2.0/24".parse()?));
    /// # Ok::<(), Box<dyn std::error::Error>>(())
    /// ```
    #[must_use = "the frozen set is consumed"]
    pub fn into_set(self) -> AddressSet<N> {
        self.set
    }
}

impl<N: Network> From<AddressSet<N>> for FrozenSet<N> {
    fn from(set: AddressSet<N>) -> Self {
        FrozenSet {
            v4: or_abort(AddressIndex::from_set(Global, &set.v4)),
            v6: or_abort(AddressIndex::from_set(Global, &set.v6)),
            set,
        }
    }
}

impl<N: Network> From<&AddressSet<N>> for FrozenSet<N> {
    fn from(set: &AddressSet<N>) -> Self {
        Self::from(set.clone())
    }
}

impl<N: Network> From<FrozenSet<N>> for AddressSet<N> {
    fn from(frozen: FrozenSet<N>) -> Self {
        frozen.into_set()
    }
}

impl<N: Network, T: Addresses<N>> FromIterator<T> for FrozenSet<N> {
    /// Creates the set of the addresses of all items.
    ///
    /// # Panics
    ///
    /// Panics if a range begins in one address family and ends in the other.
    fn from_iter<I: IntoIterator<Item = T>>(items: I) -> Self {
        AddressSet::from_iter(items).into()
    }
}

impl<N: Network, T: Addresses<N>, const K: usize> From<[T; K]> for FrozenSet<N> {
    /// Creates the set of the addresses of all items.
    ///
    /// # Panics
    ///
    /// Panics if a range begins in one address family and ends in the other.
    fn from(items: [T; K]) -> Self {
        Self::from_iter(items)
    }
}

impl<N: Network> Default for FrozenSet<N> {
    /// Creates an empty set.
    fn default() -> Self {
        AddressSet::default().into()
    }
}

impl<N: Network> fmt::Debug for FrozenSet<N> {
    /// Writes the networks, as in `{10.0.0.0/8, 2001:db8::/32}`.
    fn fmt(&self, f: &mut fmt::Formatter<'_>) -> fmt::Result {
        fmt::Debug::fmt(&self.set, f)
    }
}

/// Two sets are equal if they have the same addresses.
impl<N: Network> PartialEq for FrozenSet<N> {
    fn eq(&self, other: &Self) -> bool {
        self.set == other.set
    }
}

impl<N: Network> Eq for FrozenSet<N> {}

impl<N: Network> Hash for FrozenSet<N> {
    fn hash<H: Hasher>(&self, state: &mut H) {
        self.set.hash(state);
    }
}

/// Sets are ordered as the lists of their networks are: by the first network in which they differ.
impl<N: Network> Ord for FrozenSet<N> {
    fn cmp(&self, other: &Self) -> Ordering {
        self.set.cmp(&other.set)
    }
}

impl<N: Network> PartialOrd for FrozenSet<N> {
    fn partial_cmp(&self, other: &Self) -> Option<Ordering> {
        Some(self.cmp(other))
    }
}
