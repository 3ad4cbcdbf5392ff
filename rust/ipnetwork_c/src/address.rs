// Written by scripts/plain out of crates/ipnetwork_c/src/address.rt

//! Addresses of either family for C.

use crate::fault::{ADDRESS, NO_FAMILY, NO_MEMBER, OK};
use crate::structs::address_of;
use crate::text;
use fosibegan_core::ipnetwork::{IpAddr, Ipv4Addr};

/// An address of either family as C holds it: its octets in network order, and their number.
#[repr(C)]
#[derive(Clone, Copy)]
pub struct AddressInC {
    /// The octets, the highest first. After those of an IPv4 address come zeros.
    pub octets: [u8; 16],
    /// The number of octets: 4 or 16.
    pub length: u8,
}

impl AddressInC {
    /// Returns the struct that holds an address.
    pub(crate) fn of(address: IpAddr) -> Self {
        match address {
            IpAddr::V4(address) => {
                let [a, b, c, d] = address.octets();
                AddressInC {
                    octets: [a, b, c, d, 0, 0, 0, 0, 0, 0, 0, 0, 0, 0, 0, 0],
                    length: 4,
                }
            }
            IpAddr::V6(address) => AddressInC {
                octets: address.octets(),
                length: 16,
            },
        }
    }

    /// Returns the address, or `None` if the number of octets is neither 4 nor 16.
    pub(crate) fn address(&self) -> Option<IpAddr> {
        if self.length == 4 {
            let [a, b, c, d, ..] = self.octets;
            return Some(IpAddr::V4(Ipv4Addr::from([a, b, c, d])));
        }
        if self.length == 16 {
            return Some(IpAddr::V6(address_of(&self.octets)));
        }
        None
    }
}

/// Reads the address of either family that a text names, as `IpAddr::read_bytes` does, and writes
/// it to `address`. Returns `ADDRESS` if the text names none.
#[inline]
pub fn ipnetwork_address_read(text: &[u8], address: &mut AddressInC) -> u32 {
    match IpAddr::read_bytes(text) {
        Ok(read) => {
            *address = AddressInC::of(read);
            OK
        }
        Err(_) => ADDRESS,
    }
}

const _: () = {
    #[export_name = "ipnetwork_address_read"]
    unsafe extern "C" fn called(text: *const u8, text_length: usize, address: &mut AddressInC) -> u32 {
        unsafe { ipnetwork_address_read(crate::lent::lent(text, text_length), address) }
    }
};

/// Writes the canonical text of an address and a zero byte to `buffer`, for which 40 bytes are
/// enough, and the length of the text, without the zero byte, to `length`. Returns `SHORT_BUFFER`
/// if the buffer has no room for both, and then writes only the length; `NO_FAMILY` if the number
/// of octets in the struct is neither 4 nor 16.
#[inline]
pub fn ipnetwork_address_canonical(
    address: &AddressInC,
    buffer: &mut [u8],
    length: &mut usize,
) -> u32 {
    match address.address() {
        Some(address) => text::tell_address(&address, buffer, length),
        None => NO_FAMILY,
    }
}

const _: () = {
    #[export_name = "ipnetwork_address_canonical"]
    unsafe extern "C" fn called(address: &AddressInC, buffer: *mut u8, buffer_length: usize, length: &mut usize) -> u32 {
        unsafe { ipnetwork_address_canonical(address, crate::lent::lent_mut(buffer, buffer_length), length) }
    }
};

/// Writes to `found` the IPv4 address in an IPv4-mapped address, one of `::ffff:0:0/96`; any other
/// address as it is. Returns `NO_FAMILY` if the number of octets in the struct is neither 4 nor 16.
#[inline]
pub fn ipnetwork_address_unmapped(address: &AddressInC, found: &mut AddressInC) -> u32 {
    match address.address() {
        Some(address) => {
            *found = AddressInC::of(address.to_canonical());
            OK
        }
        None => NO_FAMILY,
    }
}

const _: () = {
    #[export_name = "ipnetwork_address_unmapped"]
    extern "C" fn called(address: &AddressInC, found: &mut AddressInC) -> u32 {
        ipnetwork_address_unmapped(address, found)
    }
};

/// Writes to `found` the octets of the IPv4 address in an IPv4-mapped address, one of
/// `::ffff:0:0/96`. Returns `NO_MEMBER` if the address is not IPv4-mapped.
#[inline]
pub fn ipnetwork_v6_unmapped(address: &[u8; 16], found: &mut [u8; 4]) -> u32 {
    match IpAddr::V6(address_of(address)).to_canonical() {
        IpAddr::V4(address) => {
            *found = address.octets();
            OK
        }
        IpAddr::V6(_) => NO_MEMBER,
    }
}

const _: () = {
    #[export_name = "ipnetwork_v6_unmapped"]
    extern "C" fn called(address: &[u8; 16], found: &mut [u8; 4]) -> u32 {
        ipnetwork_v6_unmapped(address, found)
    }
};
