// Written by scripts/plain out of crates/ipnetwork_c/src/structs.rt

//! The structs of the header, and the networks that they represent.

use crate::fault::{NO_FAMILY, PREFIX};
use fosibegan_core::ipnetwork::{IpNetwork, Ipv6Addr, Ipv6Network};
use fosibegan_core::plain_std::simd::prelude::*;

/// An IPv4 network as C holds it. Its prefix length is unchecked.
#[repr(C)]
#[derive(Clone, Copy)]
pub struct Ipv4InC {
    /// The octets of the address in network order.
    pub address: [u8; 4],
    /// The prefix length.
    pub prefix: u8,
}

/// An IPv6 network as C holds it. Its prefix length is unchecked.
#[repr(C)]
#[derive(Clone, Copy)]
pub struct Ipv6InC {
    /// The octets of the address in network order.
    pub address: [u8; 16],
    /// The prefix length.
    pub prefix: u8,
}

/// What a search by ranges returns. As a struct, it cannot be mistaken for a Boolean or a fault.
#[repr(C)]
#[derive(Clone, Copy)]
pub struct PlaceInC {
    /// The place of the range that was found, or `NO_PLACE`, 2^64 - 1, if there is none.
    pub place: usize,
}

/// The family of an `IpInC` whose network is an IPv4 network.
pub(crate) const V4: u8 = 4;

/// The family of an `IpInC` whose network is an IPv6 network.
pub(crate) const V6: u8 = 6;

/// A network of either family as C holds it. Its family and prefix length are unchecked.
#[repr(C)]
#[derive(Clone, Copy)]
pub struct IpInC {
    /// The family: 4 or 6.
    pub family: u8,
    /// The network, if the family is 4.
    pub v4: Ipv4InC,
    /// The network, if the family is 6.
    pub v6: Ipv6InC,
}

impl IpInC {
    /// Returns the struct that holds a network.
    pub(crate) fn of(network: &IpNetwork) -> Self {
        match network {
            IpNetwork::V4(network) => IpInC {
                family: V4,
                v4: Ipv4InC::of(network),
                v6: Ipv6InC {
                    address: [0; 16],
                    prefix: 0,
                },
            },
            IpNetwork::V6(network) => IpInC {
                family: V6,
                v4: Ipv4InC {
                    address: [0; 4],
                    prefix: 0,
                },
                v6: Ipv6InC::of(network),
            },
        }
    }

    /// Returns the struct that holds an IPv6 network.
    #[inline(always)]
    pub(crate) fn of_v6(network: &Ipv6Network) -> Self {
        IpInC {
            family: V6,
            v4: Ipv4InC {
                address: [0; 4],
                prefix: 0,
            },
            v6: Ipv6InC {
                address: octets_of(network.ip()),
                prefix: network.prefix(),
            },
        }
    }

    /// Returns the network that the struct represents, or a fault: `NO_FAMILY` if the family is
    /// neither 4 nor 6, else `PREFIX` if the prefix length is greater than the family's width.
    pub(crate) fn network(&self) -> Result<IpNetwork, u32> {
        if self.family == V4 {
            return match self.v4.network() {
                Some(network) => Ok(IpNetwork::V4(network)),
                None => Err(PREFIX),
            };
        }
        if self.family != V6 {
            return Err(NO_FAMILY);
        }
        match self.v6.network() {
            Some(network) => Ok(IpNetwork::V6(network)),
            None => Err(PREFIX),
        }
    }
}

/// The same in a column whose texts are read with the cause. In C it is the struct of the network.
#[repr(C)]
#[derive(Clone, Copy)]
pub struct IpWithCauseInC {
    /// The network.
    pub held: IpInC,
}

/// Returns the IPv6 address of 16 octets, made from its segments: to make a number and read its
/// segments costs more.
pub(crate) fn address_of(octets: &[u8; 16]) -> Ipv6Addr {
    let [a, b, c, d, e, f, g, h, i, j, k, l, m, n, o, p] = *octets;
    Ipv6Addr::new(
        u16::from_be_bytes([a, b]),
        u16::from_be_bytes([c, d]),
        u16::from_be_bytes([e, f]),
        u16::from_be_bytes([g, h]),
        u16::from_be_bytes([i, j]),
        u16::from_be_bytes([k, l]),
        u16::from_be_bytes([m, n]),
        u16::from_be_bytes([o, p]),
    )
}

/// Returns the number of 4 octets.
pub(crate) fn number_of_four(octets: &[u8; 4]) -> u32 {
    u32::from_be_bytes(*octets)
}

/// Returns the 16 octets of an address, as one vector, so that they are stored at once and not one
/// by one.
#[inline(always)]
fn octets_of(address: Ipv6Addr) -> [u8; 16] {
    let number = u128::from(address);
    let halves = [(number % (1 << 64)) as u64, (number >> 64) as u64];
    u64x2::from_array(halves).to_le_bytes().reverse().to_array()
}

/// Returns the number of 16 octets.
pub(crate) fn number_of(octets: &[u8; 16]) -> u128 {
    let [a, b, c, d, e, f, g, h, i, j, k, l, m, n, o, p] = *octets;
    u128::from_be_bytes([a, b, c, d, e, f, g, h, i, j, k, l, m, n, o, p])
}
