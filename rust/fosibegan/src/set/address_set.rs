//! The type of sets, and what changes one.

use super::in_order::blocks_of_range;
use super::operators::{add_blocks, subtract_blocks};
use crate::convert::{CoreV4, CoreV6, or_abort};
use crate::{IpNetwork, Network};
use core::marker::PhantomData;
use core::ops::RangeInclusive;
use fosibegan_core::AddressSet as CoreSet;
use fosibegan_core::plain_std::alloc::Global;
use fosibegan_core::plain_std::vec::Vec as CoreVec;

/// A set of IP addresses.
///
/// ```
/// use fosibegan::{AddressSet, IpNetwork};
/// use std::net::IpAddr;
///
/// let texts = ["10.0.0.0/8", "192.0.2.7", "2001:db8::/32"];
/// let allowed = texts.iter().map(|text| text.parse::<IpNetwork>()).collect::<Result<AddressSet, _>>()?;
///
/// // A socket that listens for both families reports 10.1.2.3 as ::ffff:10.1.2.3.
/// let client: IpAddr = "::ffff:10.1.2.3".parse()?;
/// assert!(allowed.contains(client.to_canonical()));
/// assert!(!allowed.contains("192.0.2.8".parse()?));
/// # Ok::<(), Box<dyn std::error::Error>>(())
/// ```
///
/// # What it holds
///
/// A set is made of networks, single addresses and ranges of addresses (see
/// [`Addresses`](crate::Addresses)), in any order; they may overlap, and host bits make no
/// difference. The set keeps the fewest networks that contain exactly these addresses, in order.
/// Two sets are equal if they have the same addresses.
///
/// `AddressSet` without a parameter is `AddressSet<IpNetwork>`, and holds addresses of both
/// families, IPv4 before IPv6. `AddressSet<Ipv4Network>` and `AddressSet<Ipv6Network>` hold one
/// family; they are made by `AddressSet::<Ipv4Network>::default()`, `collect()` or `from`. A set
/// that is made of IPv4 networks has to name its type, because they may go into a set of both
/// families too.
///
/// # Empty sets, allow lists and deny lists
///
/// **An empty set contains no address.** An allow list that turns out empty, because its file was,
/// lets nobody in. A deny list that turns out empty lets *everybody* in, and the complement of an
/// empty set, `!&set`, is the whole address space. If an empty list can only be a mistake, refuse
/// it where it is read: see [`is_empty`](Self::is_empty).
///
/// # IPv4-mapped addresses
///
/// `::ffff:10.1.2.3` is an IPv6 address, and not in `10.0.0.0/8`. Where such addresses turn up, use
/// `contains(addr.to_canonical())`, as above. For a deny list this is essential: otherwise such an
/// address passes.
///
/// If a deny list may itself have networks such as `::ffff:10.0.0.0/104`, use
/// [`contains_mapped`](AddressSet::contains_mapped), which looks for both forms of a mapped address.
/// For an allow list do not: there `::/0`, which contains all mapped addresses, would let in every
/// IPv4 client whose address comes in the mapped form.
///
/// # Cost
///
/// [`contains`](Self::contains) is a binary search: in a set of 10,000 networks it takes about 40
/// ns, and 75 if these are IPv6. A [`FrozenSet`](crate::FrozenSet), made by
/// [`freeze`](Self::freeze), answers in 10 and 12. Operations on two sets go over both lists once.
/// [`insert`](Self::insert) and [`remove`](Self::remove) move the networks after the place that
/// changes; to build a large set, collect it, `extend` it, or use a
/// [builder](crate::AddressSetBuilder), and to remove many networks, subtract a set of them.
pub struct AddressSet<N: Network = IpNetwork> {
    pub(super) v4: CoreSet<CoreV4>,
    pub(super) v6: CoreSet<CoreV6>,
    family: PhantomData<N>,
}

impl AddressSet {
    /// Creates an empty set for addresses of both families. It does not allocate.
    ///
    /// A set of one family is made by `default`, as in `AddressSet::<Ipv4Network>::default()`, so
    /// that `AddressSet::new()` needs no type.
    ///
    /// # Examples
    ///
    /// ```
    /// use fosibegan::{AddressSet, Ipv4Network};
    ///
    /// let mut set = AddressSet::new();
    /// assert!(set.insert("2001:db8::/32".parse()?));
    ///
    /// let set = AddressSet::<Ipv4Network>::default();
    /// assert!(set.is_empty());
    /// # Ok::<(), Box<dyn std::error::Error>>(())
    /// ```
    #[must_use]
    pub fn new() -> Self {
        Self::default()
    }
}

impl<N: Network> AddressSet<N> {
    pub(super) fn of_parts(v4: CoreSet<CoreV4>, v6: CoreSet<CoreV6>) -> Self {
        Self {
            v4,
            v6,
            family: PhantomData,
        }
    }

    /// Adds the addresses of a network. Returns `true` if any of them was not in the set before.
    ///
    /// Takes a binary search, and moves the networks after the one that is added. That is slow for
    /// a great many networks: 400,000 in random order take more than ten seconds one by one, and a
    /// tenth of a second by [`extend`](Extend::extend) or a [builder](crate::AddressSetBuilder).
    ///
    /// # Examples
    ///
    /// ```
    /// use fosibegan::AddressSet;
    /// use std::net::IpAddr;
    ///
    /// let mut set = AddressSet::new();
    /// assert!(set.insert("192.0.2.0/25".parse()?));
    /// assert!(set.insert("192.0.2.128/25".parse()?));
    /// assert!(set.networks().eq(["192.0.2.0/24".parse()?]));
    ///
    /// // A single address is a network too.
    /// let addr: IpAddr = "192.0.2.7".parse()?;
    /// assert!(!set.insert(addr.into()));
    /// # Ok::<(), Box<dyn std::error::Error>>(())
    /// ```
    pub fn insert(&mut self, network: N) -> bool {
        match network.either() {
            IpNetwork::V4(network) => or_abort(self.v4.insert(network.asked())),
            IpNetwork::V6(network) => or_abort(self.v6.insert(network.asked())),
        }
    }

    /// Adds the addresses of a range, both ends included. Returns `true` if any of them was not in
    /// the set before. A range that ends before it begins has no addresses.
    ///
    /// Takes binary searches, and no longer than to go over the set a few times.
    ///
    /// # Panics
    ///
    /// Panics if the range begins in one address family and ends in the other.
    ///
    /// # Examples
    ///
    /// ```
    /// use fosibegan::AddressSet;
    ///
    /// let mut set = AddressSet::new();
    /// assert!(set.insert_range("192.0.2.1".parse()?..="192.0.2.4".parse()?));
    /// let networks = ["192.0.2.1/32".parse()?, "192.0.2.2/31".parse()?, "192.0.2.4/32".parse()?];
    /// assert!(set.networks().eq(networks));
    /// # Ok::<(), Box<dyn std::error::Error>>(())
    /// ```
    pub fn insert_range(&mut self, range: RangeInclusive<N::Addr>) -> bool {
        let (v4, v6) = blocks_of_range::<N>(&range);
        let v4 = v4.is_some_and(|blocks| add_blocks(&mut self.v4, blocks));
        let v6 = v6.is_some_and(|blocks| add_blocks(&mut self.v6, blocks));
        v4 || v6
    }

    /// Removes the addresses of a network. Returns `true` if any of them was in the set.
    ///
    /// What is left of a network of the set is split into the fewest networks. Takes a binary
    /// search, and moves the networks after the one that is removed. To remove many networks, make
    /// a set of them and subtract it: `set -= &others`.
    ///
    /// # Examples
    ///
    /// ```
    /// use fosibegan::{AddressSet, IpNetwork};
    ///
    /// let mut set = AddressSet::from(["192.0.2.0/24".parse::<IpNetwork>()?]);
    /// assert!(set.remove("192.0.2.64/26".parse()?));
    /// assert!(!set.remove("192.0.2.64/27".parse()?));
    /// assert!(set.networks().eq(["192.0.2.0/26".parse()?, "192.0.2.128/25".parse()?]));
    /// # Ok::<(), Box<dyn std::error::Error>>(())
    /// ```
    pub fn remove(&mut self, network: N) -> bool {
        match network.either() {
            IpNetwork::V4(network) => or_abort(self.v4.remove(network.asked())),
            IpNetwork::V6(network) => or_abort(self.v6.remove(network.asked())),
        }
    }

    /// Removes the addresses of a range, both ends included. Returns `true` if any of them was in
    /// the set. A range that ends before it begins has no addresses.
    ///
    /// Takes binary searches, and no longer than to go over the set a few times.
    ///
    /// # Panics
    ///
    /// Panics if the range begins in one address family and ends in the other.
    ///
    /// # Examples
    ///
    /// ```
    /// use fosibegan::{AddressSet, IpNetwork};
    ///
    /// let mut set = AddressSet::from(["192.0.2.0/24".parse::<IpNetwork>()?]);
    /// assert!(set.remove_range("192.0.2.0".parse()?..="192.0.2.191".parse()?));
    /// assert!(set.networks().eq(["192.0.2.192/26".parse()?]));
    /// # Ok::<(), Box<dyn std::error::Error>>(())
    /// ```
    pub fn remove_range(&mut self, range: RangeInclusive<N::Addr>) -> bool {
        let (v4, v6) = blocks_of_range::<N>(&range);
        let v4 = v4.is_some_and(|blocks| subtract_blocks(&mut self.v4, blocks));
        let v6 = v6.is_some_and(|blocks| subtract_blocks(&mut self.v6, blocks));
        v4 || v6
    }

    /// Removes all addresses, and frees the memory.
    ///
    /// # Examples
    ///
    /// ```
    /// use fosibegan::{AddressSet, IpNetwork};
    ///
    /// let mut set = AddressSet::from(["192.0.2.0/24".parse::<IpNetwork>()?]);
    /// set.clear();
    /// assert!(set.is_empty());
    /// # Ok::<(), Box<dyn std::error::Error>>(())
    /// ```
    pub fn clear(&mut self) {
        *self = Self::default();
    }
}

impl<N: Network> Default for AddressSet<N> {
    /// Creates an empty set. It does not allocate.
    fn default() -> Self {
        let (v4, v6) = (CoreVec::new(Global), CoreVec::new(Global));
        Self::of_parts(CoreSet::from_networks(v4), CoreSet::from_networks(v6))
    }
}
