//! What is free within a network: the addresses that a set does not have.

use super::in_order::InOrder;
use super::lazy::{lazy, most_after_cuts};
use crate::convert::{CoreV4, CoreV6};
use crate::network::sealed::Here;
use crate::{AddressSet, IpNetwork, Ipv4Network, Ipv6Network, Network};
use core::fmt;
use core::iter::FusedIterator;
use core::marker::PhantomData;
use fosibegan_core::{AddressSet as CoreSet, AddressSlice, AddressSpace, Difference};

/// An iterator over the networks of the addresses within a network that a set does not have: what
/// [`AddressSet::free_in`] returns.
///
/// # Examples
///
/// ```
/// use fosibegan::{AddressSet, IpNetwork};
/// use fosibegan::address_set::FreeIn;
///
/// let used = AddressSet::from(["192.0.2.0/26".parse::<IpNetwork>()?]);
/// let mut free: FreeIn<'_> = used.free_in("192.0.2.0/24".parse()?);
/// assert_eq!(free.next(), Some("192.0.2.64/26".parse()?));
/// assert_eq!(free.next(), Some("192.0.2.128/25".parse()?));
/// # Ok::<(), Box<dyn std::error::Error>>(())
/// ```
#[derive(Clone)]
#[must_use = "iterators are lazy and do nothing unless consumed"]
pub struct FreeIn<'a, N: Network = IpNetwork> {
    networks: InOrder<Difference<'a, CoreV4>, Difference<'a, CoreV6>>,
    family: PhantomData<N>,
}

impl<N: Network> AddressSet<N> {
    /// Returns an iterator over what is free in `within`: the fewest networks that contain exactly
    /// the addresses of `within` that are not in the set, in ascending order. Takes a binary
    /// search, and goes over the networks of the set that lie within `within`.
    ///
    /// # Examples
    ///
    /// ```
    /// use fosibegan::{AddressSet, IpNetwork};
    ///
    /// let used = AddressSet::from(["192.0.2.0/28".parse::<IpNetwork>()?]);
    /// let free = ["192.0.2.16/28".parse()?, "192.0.2.32/27".parse()?];
    /// assert!(used.free_in("192.0.2.0/26".parse()?).eq(free));
    /// # Ok::<(), Box<dyn std::error::Error>>(())
    /// ```
    pub fn free_in(&self, within: N) -> FreeIn<'_, N> {
        let (v4, v6) = match within.either() {
            IpNetwork::V4(network) => (Some(free_in(&self.v4, network.asked())), None),
            IpNetwork::V6(network) => (None, Some(free_in(&self.v6, network.asked()))),
        };
        FreeIn {
            networks: InOrder::new(v4, v6, most_after_cuts(1, self)),
            family: PhantomData,
        }
    }

    /// Returns the first network of this prefix length in `within` that contains no address of the
    /// set. Returns `None` if there is none, if `prefix` is shorter than the prefix length of
    /// `within`, or if it is too long for the family.
    ///
    /// The set does not change: [`insert`](Self::insert) the network if you take it. Takes a binary
    /// search, and goes over the networks of the set that lie within `within`.
    ///
    /// # Examples
    ///
    /// ```
    /// use fosibegan::{AddressSet, IpNetwork};
    ///
    /// let pool: IpNetwork = "10.0.0.0/24".parse()?;
    /// let mut used = AddressSet::from(["10.0.0.0/28".parse::<IpNetwork>()?]);
    /// let next = used.first_free(pool, 26).ok_or("the pool is used up")?;
    /// assert_eq!(next, "10.0.0.64/26".parse()?);
    /// assert!(used.insert(next));
    /// # Ok::<(), Box<dyn std::error::Error>>(())
    /// ```
    #[must_use]
    pub fn first_free(&self, within: N, prefix: u8) -> Option<N> {
        let is_large = |free: &N| (*free).into().prefix() <= prefix;
        match self.free_in(within).find(is_large)?.into() {
            IpNetwork::V4(free) => Ipv4Network::new_checked(free.ip(), prefix)
                .map(|network| N::of_v4(network, Here(()))),
            IpNetwork::V6(free) => Ipv6Network::new_checked(free.ip(), prefix)
                .map(|network| N::of_v6(network, Here(()))),
        }
    }

    /// Returns the largest network in `within` that contains no address of the set, and the first
    /// one if several are as large. Returns `None` if every address of `within` is in the set.
    /// Takes a binary search, and goes over the networks of the set that lie within `within`.
    ///
    /// # Examples
    ///
    /// ```
    /// use fosibegan::{AddressSet, IpNetwork};
    ///
    /// let pool: IpNetwork = "10.0.0.0/24".parse()?;
    /// let used = AddressSet::from(["10.0.0.0/28".parse::<IpNetwork>()?, "10.0.0.200".parse()?]);
    /// assert_eq!(used.largest_free(pool), Some("10.0.0.64/26".parse()?));
    /// # Ok::<(), Box<dyn std::error::Error>>(())
    /// ```
    #[must_use]
    pub fn largest_free(&self, within: N) -> Option<N> {
        self.free_in(within)
            .min_by_key(|network| (*network).into().prefix())
    }
}

lazy!(FreeIn);

/// The blocks of the addresses of a network that are not in the set. Of a large set only the part
/// is looked at that the network is in: the core checks that it is a set, which takes a step for
/// each of its blocks, but fewer than to go over the others.
fn free_in<C: AddressSpace>(set: &CoreSet<C>, within: C) -> Difference<'_, C> {
    let blocks = set.blocks();
    let from = blocks.partition_point(|block| block.broadcast() < within.network());
    let to = blocks.partition_point(|block| block.ip() <= within.broadcast());
    if to - from < blocks.len() / 2 {
        if let Some(part) = AddressSlice::from_blocks(&blocks[from..to]) {
            return part.free_in(within);
        }
    }
    set.free_in(within)
}
