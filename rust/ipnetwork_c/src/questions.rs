// Written by scripts/plain out of crates/ipnetwork_c/src/questions.rt

//! The calls that ask about networks of either family. Each refuses a struct that represents no
//! network: `NO_FAMILY` if its family is neither 4 nor 6, else `PREFIX` if its prefix length is
//! greater than the family's width.

use crate::address::AddressInC;
use crate::fault::OK;
use crate::order::number_between;
use crate::structs::IpInC;
use crate::text;
use fosibegan_core::ipnetwork::IpNetwork;

// Writes what `told` returns for the network that a struct represents.
#[inline(always)]
fn tell<T: Copy, F: FnOnce(IpNetwork) -> T>(held: &IpInC, place: &mut T, told: F) -> u32 {
    match held.network() {
        Ok(network) => {
            *place = told(network);
            OK
        }
        Err(fault) => fault,
    }
}

// The same for two structs.
#[inline(always)]
fn tell_both<T: Copy, F: FnOnce(IpNetwork, IpNetwork) -> T>(
    one: &IpInC,
    other: &IpInC,
    place: &mut T,
    told: F,
) -> u32 {
    let one = match one.network() {
        Ok(network) => network,
        Err(fault) => return fault,
    };
    match other.network() {
        Ok(other) => {
            *place = told(one, other);
            OK
        }
        Err(fault) => fault,
    }
}

/// Writes the canonical text and a zero byte to `buffer`, for which 44 bytes are enough, and the
/// length of the text, without the zero byte, to `length`. Returns `SHORT_BUFFER` if the buffer has
/// no room for both, and then writes only the length.
#[inline]
pub fn ipnetwork_canonical(network: &IpInC, buffer: &mut [u8], length: &mut usize) -> u32 {
    match network.network() {
        Ok(network) => text::tell_network(&network, buffer, length),
        Err(fault) => fault,
    }
}

const _: () = {
    #[export_name = "ipnetwork_canonical"]
    unsafe extern "C" fn called(network: &IpInC, buffer: *mut u8, buffer_length: usize, length: &mut usize) -> u32 {
        unsafe { ipnetwork_canonical(network, crate::lent::lent_mut(buffer, buffer_length), length) }
    }
};

/// Writes the least member: the address with its host bits cleared.
#[inline]
pub fn ipnetwork_network(network: &IpInC, address: &mut AddressInC) -> u32 {
    tell(network, address, |n| AddressInC::of(n.network()))
}

const _: () = {
    #[export_name = "ipnetwork_network"]
    extern "C" fn called(network: &IpInC, address: &mut AddressInC) -> u32 {
        ipnetwork_network(network, address)
    }
};

/// Writes the greatest member: the address with its host bits set.
#[inline]
pub fn ipnetwork_broadcast(network: &IpInC, address: &mut AddressInC) -> u32 {
    tell(network, address, |n| AddressInC::of(n.broadcast()))
}

const _: () = {
    #[export_name = "ipnetwork_broadcast"]
    extern "C" fn called(network: &IpInC, address: &mut AddressInC) -> u32 {
        ipnetwork_broadcast(network, address)
    }
};

/// Writes the mask, an address of the network's family.
#[inline]
pub fn ipnetwork_mask(network: &IpInC, mask: &mut AddressInC) -> u32 {
    tell(network, mask, |n| AddressInC::of(n.mask()))
}

const _: () = {
    #[export_name = "ipnetwork_mask"]
    extern "C" fn called(network: &IpInC, mask: &mut AddressInC) -> u32 {
        ipnetwork_mask(network, mask)
    }
};

/// Writes to `answer` 1 if each member of `inner` is a member of `outer`, else 0, as it is for
/// different families. Host bits are ignored. `inner` is checked first.
#[inline]
pub fn ipnetwork_is_subnet_of(inner: &IpInC, outer: &IpInC, answer: &mut u8) -> u32 {
    tell_both(inner, outer, answer, |a, b| u8::from(a.is_subnet_of(b)))
}

const _: () = {
    #[export_name = "ipnetwork_is_subnet_of"]
    extern "C" fn called(inner: &IpInC, outer: &IpInC, answer: &mut u8) -> u32 {
        ipnetwork_is_subnet_of(inner, outer, answer)
    }
};

/// Writes to `answer` 1 if some address is a member of both networks, else 0. `one` is checked
/// first.
#[inline]
pub fn ipnetwork_overlaps(one: &IpInC, other: &IpInC, answer: &mut u8) -> u32 {
    tell_both(one, other, answer, |a, b| u8::from(a.overlaps(b)))
}

const _: () = {
    #[export_name = "ipnetwork_overlaps"]
    extern "C" fn called(one: &IpInC, other: &IpInC, answer: &mut u8) -> u32 {
        ipnetwork_overlaps(one, other, answer)
    }
};

/// Writes to `order` which of two networks comes first: -1 if `one` does, 1 if `other` does, 0 if
/// they are equal. Each IPv4 network comes before each IPv6 network; within a family the address
/// decides, then the prefix length. `one` is checked first.
#[inline]
pub fn ipnetwork_compare(one: &IpInC, other: &IpInC, order: &mut i32) -> u32 {
    tell_both(one, other, order, |a, b| number_between(a, b))
}

const _: () = {
    #[export_name = "ipnetwork_compare"]
    extern "C" fn called(one: &IpInC, other: &IpInC, order: &mut i32) -> u32 {
        ipnetwork_compare(one, other, order)
    }
};
