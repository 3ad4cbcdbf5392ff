// Written by scripts/plain out of crates/ipnetwork_c/src/either.rt

//! The calls for networks of either family.

use crate::fault::{self, NO_FAMILY, OK, PREFIX};
use crate::structs::{IpInC, V4, V6, address_of};
use fosibegan_core::ipnetwork::{
    Address, CidrFault, IpAddr, IpNetwork, Ipv4Addr, Ipv6Addr, Ipv6Network, cause,
};

/// Reads the network of either family that a text names, as `IpNetwork::read_bytes` does, and
/// writes it to `network`, with the struct of the other family all zeros. Returns `ADDRESS` if the
/// text names none.
#[inline]
pub fn ipnetwork_read(text: &[u8], network: &mut IpInC) -> u32 {
    match IpNetwork::read_bytes(text) {
        Ok(read) => {
            *network = IpInC::of(&read);
            OK
        }
        Err(cause) => fault::number_of(cause),
    }
}

const _: () = {
    #[export_name = "ipnetwork_read"]
    unsafe extern "C" fn called(text: *const u8, text_length: usize, network: &mut IpInC) -> u32 {
        unsafe { ipnetwork_read(crate::lent::lent(text, text_length), network) }
    }
};

/// The same with the cause. If the text names no network, returns `FORMAT` if it has two or more
/// `/`, else `ADDRESS` if the part before the `/`, or the whole text without one, is an address of
/// neither family, else `PREFIX`.
#[inline(always)]
pub fn ipnetwork_read_with_cause(text: &[u8], network: &mut IpInC) -> u32 {
    if let Some(read) = v6_before_two_digits(text) {
        *network = IpInC::of_v6(&read);
        return OK;
    }
    read_any(text, network)
}

const _: () = {
    #[export_name = "ipnetwork_read_with_cause"]
    unsafe extern "C" fn called(text: *const u8, text_length: usize, network: &mut IpInC) -> u32 {
        unsafe { ipnetwork_read_with_cause(crate::lent::lent(text, text_length), network) }
    }
};

/// The same for any text. It is a separate function so that its cost does not fall on the other
/// texts of a column.
#[inline(never)]
fn read_any(text: &[u8], network: &mut IpInC) -> u32 {
    if let Some(read) = v6_behind_four_digits(text) {
        *network = IpInC::of_v6(&read);
        return OK;
    }
    match IpNetwork::read_bytes(text) {
        Ok(read) => {
            *network = IpInC::of(&read);
            OK
        }
        Err(_) => match refusal_of(text) {
            Some(cause) => fault::number_of(cause),
            None => unreachable!(),
        },
    }
}

/// Returns the IPv6 network that a text names, if `slash_before_two` finds its `/`, as in most
/// texts, which are thus read in few steps. `None` says nothing about the text.
#[inline(always)]
fn v6_before_two_digits(text: &[u8]) -> Option<Ipv6Network> {
    let at = slash_before_two(text)?;
    let Ok(address) = Ipv6Addr::read_bytes(&text[..at]) else {
        return None;
    };
    let prefix = Ipv6Addr::read_suffix(&text[at + 1..])?;
    match Ipv6Network::new_checked(address, prefix) {
        Some(read) => Some(read),
        None => None,
    }
}

/// Returns the index of a `/` before the last two bytes of a text whose fifth byte is a colon.
#[inline(always)]
fn slash_before_two(text: &[u8]) -> Option<usize> {
    let count = text.len();
    if count < 5 || text[4] != b':' {
        return None;
    }
    let at = count - 3;
    if text[at] == b'/' { Some(at) } else { None }
}

/// Returns the IPv6 network that a text names, if its fifth byte is a colon, as after four digits.
/// `None` says nothing about the text. Read this way, the network is stored only once, and not
/// first as one of either family.
#[inline(always)]
fn v6_behind_four_digits(text: &[u8]) -> Option<Ipv6Network> {
    let [_, _, _, _, b':', ..] = text else {
        return None;
    };
    match Ipv6Network::read_bytes(text) {
        Ok(network) => Some(network),
        Err(_) => None,
    }
}

/// Returns why a text names no network of either family, if it names none. It is a separate
/// function so that a column's loop contains only the reading of texts that name one.
#[inline(never)]
fn refusal_of(text: &[u8]) -> Option<CidrFault> {
    cause(text)
}

/// Writes to `answer` 1 if an address of 4 or 16 octets is in the network, else 0. No address of
/// the other family is. Returns `NO_FAMILY` if the family of the struct is neither 4 nor 6, or the
/// address has neither 4 nor 16 octets; else `PREFIX` if the prefix length is greater than the
/// family's width.
#[inline]
pub fn ipnetwork_contains(network: &IpInC, address: &[u8], answer: &mut u8) -> u32 {
    let Some(address) = address_in(address) else {
        return NO_FAMILY;
    };
    let held = if network.family == V4 {
        match network.v4.network() {
            Some(network) => IpNetwork::V4(network),
            None => return PREFIX,
        }
    } else if network.family == V6 {
        match network.v6.network() {
            Some(network) => IpNetwork::V6(network),
            None => return PREFIX,
        }
    } else {
        return NO_FAMILY;
    };
    *answer = u8::from(held.contains(address));
    OK
}

const _: () = {
    #[export_name = "ipnetwork_contains"]
    unsafe extern "C" fn called(network: &IpInC, address: *const u8, address_length: usize, answer: &mut u8) -> u32 {
        unsafe { ipnetwork_contains(network, crate::lent::lent(address, address_length), answer) }
    }
};

/// Returns the address of these octets, if there are 4 or 16.
fn address_in(octets: &[u8]) -> Option<IpAddr> {
    if let Ok(octets) = <[u8; 4]>::try_from(octets) {
        return Some(IpAddr::V4(Ipv4Addr::from(octets)));
    }
    match <[u8; 16]>::try_from(octets) {
        Ok(octets) => Some(IpAddr::V6(address_of(&octets))),
        Err(_) => None,
    }
}
