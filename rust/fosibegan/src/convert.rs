//! Addresses and networks as the core has them, and back.

use crate::{Ipv4Network, Ipv6Network};
use alloc::alloc::{Layout, handle_alloc_error};
use core::net::{Ipv4Addr, Ipv6Addr};
use fosibegan_core::ipnetwork_addr as core_addr;
use fosibegan_core::ipnetwork_family::{self as core_family, Network as CoreNetwork};

pub(crate) type CoreV4 = core_family::Ipv4Network;
pub(crate) type CoreV6 = core_family::Ipv6Network;

/// What a call of the core returns if it got the memory that it needed. If not, this ends the
/// program as std does, which makes no difference between one size and another.
#[inline]
pub(crate) fn or_abort<T, E>(result: Result<T, E>) -> T {
    result.unwrap_or_else(|_| handle_alloc_error(Layout::new::<u8>()))
}

/// The address as the core has it.
#[inline]
pub(crate) fn asked_v4(address: Ipv4Addr) -> core_addr::Ipv4Addr {
    address.to_bits().into()
}

/// The address that the core answers.
#[inline]
pub(crate) fn from_core_v4(address: core_addr::Ipv4Addr) -> Ipv4Addr {
    Ipv4Addr::from_bits(address.into())
}

/// The address as the core has it: by its segments, which takes less time where it is compared many
/// times.
#[inline]
pub(crate) fn asked_v6(address: Ipv6Addr) -> core_addr::Ipv6Addr {
    address.segments().into()
}

/// The same by its number, which takes less time where the core first asks for the number.
#[inline]
pub(crate) fn asked_v6_by_number(address: Ipv6Addr) -> core_addr::Ipv6Addr {
    address.to_bits().into()
}

/// The address that the core answers.
#[inline]
pub(crate) fn from_core_v6(address: core_addr::Ipv6Addr) -> Ipv6Addr {
    address.segments().into()
}

impl Ipv4Network {
    /// The network as the core has it.
    #[inline]
    pub(crate) fn asked(self) -> CoreV4 {
        match CoreNetwork::new_checked(asked_v4(self.ip()), self.prefix()) {
            Some(network) => network,
            None => unreachable!("a network has a prefix length of its family"),
        }
    }

    /// The network that the core answers.
    #[inline]
    pub(crate) fn from_core(network: CoreV4) -> Self {
        match Self::new_checked(from_core_v4(network.ip()), network.prefix()) {
            Some(network) => network,
            None => unreachable!("a network has a prefix length of its family"),
        }
    }
}

impl Ipv6Network {
    /// The network as the core has it.
    #[inline]
    pub(crate) fn asked(self) -> CoreV6 {
        match CoreNetwork::new_checked(asked_v6(self.ip()), self.prefix()) {
            Some(network) => network,
            None => unreachable!("a network has a prefix length of its family"),
        }
    }

    /// The network that the core answers.
    #[inline]
    pub(crate) fn from_core(network: CoreV6) -> Self {
        match Self::new_checked(from_core_v6(network.ip()), network.prefix()) {
            Some(network) => network,
            None => unreachable!("a network has a prefix length of its family"),
        }
    }
}
