// Written by scripts/plain out of crates/ipnetwork_c/src/sizes.rt

//! The number of members of a network, and its numbered members, even for the network of all
//! addresses.

use crate::fault::{NO_MEMBER, OK, PREFIX};
use crate::structs::{Ipv4InC, Ipv6InC, address_of};
use fosibegan_core::ipnetwork::{Ipv4Addr, Ipv4Network, Ipv6Addr, Ipv6Network};
use fosibegan_core::ipnetwork_family::{Address, Network};

/// An address as a number of a type that every address fits.
pub(crate) trait Numbered: Address {
    /// Returns the number of the address.
    fn to_number(self) -> u128;

    /// Returns the address of a number of `WIDTH` bits.
    fn from_number(number: u128) -> Self;
}

impl Numbered for Ipv4Addr {
    fn to_number(self) -> u128 {
        u128::from(u32::from(self))
    }

    fn from_number(number: u128) -> Ipv4Addr {
        Ipv4Addr::from(number as u32)
    }
}

impl Numbered for Ipv6Addr {
    fn to_number(self) -> u128 {
        u128::from(self)
    }

    fn from_number(number: u128) -> Ipv6Addr {
        Ipv6Addr::from(number)
    }
}

/// Returns the least and the greatest member as numbers.
fn ends<A: Numbered>(network: &Network<A>) -> (u128, u128) {
    let greatest = network.broadcast();
    greatest.law_of_width();
    (network.network().to_number(), greatest.to_number())
}

/// Returns the index of the last member, counted from 0: one less than the number of members.
fn last_index<A: Numbered>(network: &Network<A>) -> u128 {
    let (least, greatest) = ends(network);
    greatest - least
}

// Returns member number `n`, counted from 0 in ascending order.
fn nth<A: Numbered>(network: &Network<A>, n: u128) -> Option<A> {
    let (least, greatest) = ends(network);
    if n > greatest - least {
        return None;
    }
    Some(A::from_number(least + n))
}

// Returns the number of members of an IPv4 network.
fn v4_size(network: &Ipv4Network) -> u64 {
    last_index(network) as u64 + 1
}

// Returns the number of members of an IPv6 network as 17 octets, the highest first.
fn v6_size(network: &Ipv6Network) -> [u8; 17] {
    let last = last_index(network);
    // One more than the last octet of that number.
    let next = last % 256 + 1;
    let front = Ipv6Addr::from(last / 256 + next / 256);
    followed_by(front.octets(), (next % 256) as u8)
}

/// Returns 16 octets followed by one more.
fn followed_by(front: [u8; 16], lowest: u8) -> [u8; 17] {
    let mut octets = [lowest; 17];
    octets[..16].copy_from_slice(&front);
    octets
}

/// Writes the number of members, 2^32 for prefix length 0. Returns `PREFIX` if the prefix length is
/// greater than 32.
#[inline]
pub fn ipnetwork_v4_size(network: &Ipv4InC, size: &mut u64) -> u32 {
    let Some(v4) = network.network() else {
        return PREFIX;
    };
    *size = v4_size(&v4);
    OK
}

const _: () = {
    #[export_name = "ipnetwork_v4_size"]
    extern "C" fn called(network: &Ipv4InC, size: &mut u64) -> u32 {
        ipnetwork_v4_size(network, size)
    }
};

/// Writes the number of members of an IPv6 network, 2^128 for prefix length 0, as 17 octets, the
/// highest first. Returns `PREFIX` if the prefix length is greater than 128.
#[inline]
pub fn ipnetwork_v6_size(network: &Ipv6InC, size: &mut [u8; 17]) -> u32 {
    let Some(v6) = network.network() else {
        return PREFIX;
    };
    *size = v6_size(&v6);
    OK
}

const _: () = {
    #[export_name = "ipnetwork_v6_size"]
    extern "C" fn called(network: &Ipv6InC, size: &mut [u8; 17]) -> u32 {
        ipnetwork_v6_size(network, size)
    }
};

/// Writes member number `n`, counted from 0 in ascending order. Returns `PREFIX` if the prefix
/// length is greater than 32, else `NO_MEMBER` if the network has at most `n` members.
#[inline]
pub fn ipnetwork_v4_nth(network: &Ipv4InC, n: u32, address: &mut [u8; 4]) -> u32 {
    match network.network() {
        Some(network) => match nth(&network, u128::from(n)) {
            Some(member) => {
                *address = member.octets();
                OK
            }
            None => NO_MEMBER,
        },
        None => PREFIX,
    }
}

const _: () = {
    #[export_name = "ipnetwork_v4_nth"]
    extern "C" fn called(network: &Ipv4InC, n: u32, address: &mut [u8; 4]) -> u32 {
        ipnetwork_v4_nth(network, n, address)
    }
};

/// The same for IPv6, for prefix lengths up to 128. The number is 16 octets, the highest first.
#[inline]
pub fn ipnetwork_v6_nth(network: &Ipv6InC, n: &[u8; 16], address: &mut [u8; 16]) -> u32 {
    match network.network() {
        Some(network) => match nth(&network, u128::from(address_of(n))) {
            Some(member) => {
                *address = member.octets();
                OK
            }
            None => NO_MEMBER,
        },
        None => PREFIX,
    }
}

const _: () = {
    #[export_name = "ipnetwork_v6_nth"]
    extern "C" fn called(network: &Ipv6InC, n: &[u8; 16], address: &mut [u8; 16]) -> u32 {
        ipnetwork_v6_nth(network, n, address)
    }
};
