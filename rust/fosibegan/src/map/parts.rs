//! The entries of both families, as both kinds of maps have them.

use super::both::Both;
use super::part::{Index, Part, Places, Table};
use super::part_iter::{PartCovering, PartIter, PartRange};
use crate::convert::{CoreV4, CoreV6, asked_v4, asked_v6_by_number};
use crate::network::sealed::Here;
use crate::{IpNetwork, Ipv4Network, Ipv6Network, Network};
use alloc::vec::Vec;
use core::marker::PhantomData;
use core::net::{IpAddr, Ipv4Addr, Ipv6Addr};

/// The entries of both families. The part of a family that `N` has not stays empty.
pub(super) struct Parts<N, V, P4, P6> {
    v4: Part<CoreV4, V, P4>,
    v6: Part<CoreV6, V, P6>,
    networks: PhantomData<N>,
}

pub(super) type Tables<N, V> = Parts<N, V, Table<CoreV4>, Table<CoreV6>>;
pub(super) type Indexes<N, V> = Parts<N, V, Index<CoreV4>, Index<CoreV6>>;

/// Where the value of a block is.
#[derive(Clone, Copy)]
pub(super) enum Place {
    V4(usize),
    V6(usize),
}

#[inline]
pub(super) fn network_of_v4<N: Network>(block: CoreV4) -> N {
    N::of_v4(Ipv4Network::from_core(block), Here(()))
}

#[inline]
pub(super) fn network_of_v6<N: Network>(block: CoreV6) -> N {
    N::of_v6(Ipv6Network::from_core(block), Here(()))
}

/// The block of this prefix length that has the address. The core has it too, but to take it from
/// there takes longer.
#[inline]
fn block_at_v4<N: Network>(addr: Ipv4Addr, prefix: u8) -> N {
    match Ipv4Network::new_checked(addr, prefix) {
        Some(network) => N::of_v4(network.block(), Here(())),
        None => unreachable!("a block has a prefix length of its family"),
    }
}

/// The same of IPv6.
#[inline]
fn block_at_v6<N: Network>(addr: Ipv6Addr, prefix: u8) -> N {
    match Ipv6Network::new_checked(addr, prefix) {
        Some(network) => N::of_v6(network.block(), Here(())),
        None => unreachable!("a block has a prefix length of its family"),
    }
}

/// The network with its host bits cleared.
pub(super) fn block<N: Network>(network: N) -> N {
    match network.either() {
        IpNetwork::V4(network) => N::of_v4(network.block(), Here(())),
        IpNetwork::V6(network) => N::of_v6(network.block(), Here(())),
    }
}

impl<N, V, P4, P6> Parts<N, V, P4, P6> {
    pub(super) const fn new() -> Self {
        Parts {
            v4: Part::new(),
            v6: Part::new(),
            networks: PhantomData,
        }
    }

    #[inline]
    pub(super) fn len(&self) -> usize {
        self.v4.len() + self.v6.len()
    }
}

impl<N: Network, V, P4, P6> Parts<N, V, P4, P6> {
    pub(super) fn iter(&self) -> Both<N, PartIter<'_, CoreV4, V>, PartIter<'_, CoreV6, V>> {
        Both::new(self.v4.iter(), self.v6.iter())
    }

    #[inline]
    pub(super) fn at(&self, place: Place) -> &V {
        match place {
            Place::V4(place) => self.v4.at(place),
            Place::V6(place) => self.v6.at(place),
        }
    }

    #[inline]
    pub(super) fn at_mut(&mut self, place: Place) -> &mut V {
        match place {
            Place::V4(place) => self.v4.at_mut(place),
            Place::V6(place) => self.v6.at_mut(place),
        }
    }

    pub(super) fn iter_mut(&mut self) -> Both<N, Listed<CoreV4, &mut V>, Listed<CoreV6, &mut V>> {
        Both::new(
            self.v4.sorted_mut().into_iter(),
            self.v6.sorted_mut().into_iter(),
        )
    }

    pub(super) fn into_entries(self) -> Both<N, Listed<CoreV4, V>, Listed<CoreV6, V>> {
        Both::new(
            self.v4.into_sorted().into_iter(),
            self.v6.into_sorted().into_iter(),
        )
    }
}

/// Entries of one family, listed in order.
pub(super) type Listed<C, T> = alloc::vec::IntoIter<(C, T)>;

impl<N: Network, V, P4: Places<CoreV4>, P6: Places<CoreV6>> Parts<N, V, P4, P6> {
    #[inline]
    pub(super) fn place_of(&self, network: N) -> Option<Place> {
        match network.either() {
            IpNetwork::V4(network) => self.v4.place_of(network.asked()).map(Place::V4),
            IpNetwork::V6(network) => self.v6.place_of(network.asked()).map(Place::V6),
        }
    }

    #[inline]
    pub(super) fn get(&self, network: N) -> Option<&V> {
        match network.either() {
            IpNetwork::V4(network) => {
                let place = self.v4.place_of(network.asked())?;
                Some(self.v4.at(place))
            }
            IpNetwork::V6(network) => {
                let place = self.v6.place_of(network.asked())?;
                Some(self.v6.at(place))
            }
        }
    }

    #[inline]
    pub(super) fn get_mut(&mut self, network: N) -> Option<&mut V> {
        let place = self.place_of(network)?;
        Some(self.at_mut(place))
    }

    #[inline]
    pub(super) fn longest_match(&self, addr: N::Addr) -> Option<(N, &V)> {
        match N::either_address(addr) {
            IpAddr::V4(addr) => {
                let (prefix, place) = self.v4.longest(asked_v4(addr))?;
                Some((block_at_v4(addr, prefix), self.v4.at(place)))
            }
            IpAddr::V6(addr) => {
                let (prefix, place) = self.v6.longest(asked_v6_by_number(addr))?;
                Some((block_at_v6(addr, prefix), self.v6.at(place)))
            }
        }
    }

    #[inline]
    pub(super) fn longest_match_mut(&mut self, addr: N::Addr) -> Option<(N, &mut V)> {
        match N::either_address(addr) {
            IpAddr::V4(addr) => {
                let (prefix, place) = self.v4.longest(asked_v4(addr))?;
                Some((block_at_v4(addr, prefix), self.v4.at_mut(place)))
            }
            IpAddr::V6(addr) => {
                let (prefix, place) = self.v6.longest(asked_v6_by_number(addr))?;
                Some((block_at_v6(addr, prefix), self.v6.at_mut(place)))
            }
        }
    }

    pub(super) fn covering(
        &self,
        network: N,
    ) -> Both<N, PartCovering<'_, CoreV4, V>, PartCovering<'_, CoreV6, V>> {
        match network.either() {
            IpNetwork::V4(network) => {
                Both::new(self.v4.covering(network.asked()), PartCovering::none())
            }
            IpNetwork::V6(network) => {
                Both::new(PartCovering::none(), self.v6.covering(network.asked()))
            }
        }
    }

    pub(super) fn covered_by(
        &self,
        network: N,
    ) -> Both<N, PartRange<'_, CoreV4, V>, PartRange<'_, CoreV6, V>> {
        match network.either() {
            IpNetwork::V4(network) => {
                Both::new(self.v4.covered_by(network.asked()), PartRange::none())
            }
            IpNetwork::V6(network) => {
                Both::new(PartRange::none(), self.v6.covered_by(network.asked()))
            }
        }
    }
}

impl<V, P4: Places<CoreV4>, P6: Places<CoreV6>> Parts<IpNetwork, V, P4, P6> {
    /// The longest match of the IPv4 address that an IPv4-mapped address has, and if there is none,
    /// or the address is not mapped, that of the address as it is.
    #[inline]
    pub(super) fn longest_match_mapped(&self, addr: IpAddr) -> Option<(IpNetwork, &V)> {
        let canonical = addr.to_canonical();
        match self.longest_match(canonical) {
            None if canonical != addr => self.longest_match(addr),
            found => found,
        }
    }
}

impl<N: Network, V> Tables<N, V> {
    /// Makes the parts of entries in any order. Of several with one block, the last one counts.
    pub(super) fn of_entries(entries: impl Iterator<Item = (N, V)>) -> Self {
        let (mut v4, mut v6) = (Vec::new(), Vec::new());
        for (network, value) in entries {
            match network.either() {
                IpNetwork::V4(network) => v4.push((network.asked(), value)),
                IpNetwork::V6(network) => v6.push((network.asked(), value)),
            }
        }
        Parts {
            v4: Part::of_entries(v4),
            v6: Part::of_entries(v6),
            networks: PhantomData,
        }
    }

    pub(super) fn insert(&mut self, network: N, value: V) -> Option<V> {
        match network.either() {
            IpNetwork::V4(network) => self.v4.insert(network.asked(), value),
            IpNetwork::V6(network) => self.v6.insert(network.asked(), value),
        }
    }

    /// Inserts a network whose block has no value. Returns where its value is.
    pub(super) fn insert_new(&mut self, network: N, value: V) -> Place {
        match network.either() {
            IpNetwork::V4(network) => {
                self.v4.insert(network.asked(), value);
                Place::V4(self.v4.len() - 1)
            }
            IpNetwork::V6(network) => {
                self.v6.insert(network.asked(), value);
                Place::V6(self.v6.len() - 1)
            }
        }
    }

    pub(super) fn remove(&mut self, network: N) -> Option<(N, V)> {
        match network.either() {
            IpNetwork::V4(network) => {
                let (block, value) = self.v4.remove(network.asked())?;
                Some((network_of_v4(block), value))
            }
            IpNetwork::V6(network) => {
                let (block, value) = self.v6.remove(network.asked())?;
                Some((network_of_v6(block), value))
            }
        }
    }

    pub(super) fn retain(&mut self, mut keep: impl FnMut(N, &mut V) -> bool) {
        self.v4
            .retain(|block, value| keep(network_of_v4(block), value));
        self.v6
            .retain(|block, value| keep(network_of_v6(block), value));
    }

    pub(super) fn freeze(self) -> Indexes<N, V> {
        Parts {
            v4: self.v4.freeze(),
            v6: self.v6.freeze(),
            networks: PhantomData,
        }
    }
}

impl<N, V> Indexes<N, V> {
    pub(super) fn thaw(self) -> Tables<N, V> {
        Parts {
            v4: self.v4.thaw(),
            v6: self.v6.thaw(),
            networks: PhantomData,
        }
    }
}

impl<N, V, P4, P6> Clone for Parts<N, V, P4, P6>
where
    Part<CoreV4, V, P4>: Clone,
    Part<CoreV6, V, P6>: Clone,
{
    fn clone(&self) -> Self {
        Parts {
            v4: self.v4.clone(),
            v6: self.v6.clone(),
            networks: PhantomData,
        }
    }
}
