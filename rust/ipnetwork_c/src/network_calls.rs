// Written by scripts/plain out of crates/ipnetwork_c/src/network_calls.rt

//! The calls for networks of one family.

use crate::fault::{NO_MASK, OK, PREFIX};
use crate::order::number_of_order;
use crate::structs::{Ipv4InC, Ipv6InC, address_of};
use crate::text;
use crate::text_columns::ReadsRow;
use fosibegan_core::ipnetwork::Ipv4Addr;
use fosibegan_core::ipnetwork_family::Address;

/// Reads the network that a text names, as `Ipv4Network::read_bytes` does, and writes it to
/// `network`. If the text names none, returns `FORMAT`, `ADDRESS` or `PREFIX`, the first that
/// applies.
#[inline]
pub fn ipnetwork_v4_read(text: &[u8], network: &mut Ipv4InC) -> u32 {
    network.read_row(text)
}

const _: () = {
    #[export_name = "ipnetwork_v4_read"]
    unsafe extern "C" fn called(text: *const u8, text_length: usize, network: &mut Ipv4InC) -> u32 {
        unsafe { ipnetwork_v4_read(crate::lent::lent(text, text_length), network) }
    }
};

/// The same for IPv6, as `Ipv6Network::read_bytes` does.
#[inline]
pub fn ipnetwork_v6_read(text: &[u8], network: &mut Ipv6InC) -> u32 {
    network.read_row(text)
}

const _: () = {
    #[export_name = "ipnetwork_v6_read"]
    unsafe extern "C" fn called(text: *const u8, text_length: usize, network: &mut Ipv6InC) -> u32 {
        unsafe { ipnetwork_v6_read(crate::lent::lent(text, text_length), network) }
    }
};

/// Writes to `network` the network of this address, host bits kept, and this prefix length. Returns
/// `PREFIX` if the prefix length is greater than 32.
#[inline]
pub fn ipnetwork_v4_new(address: &[u8; 4], prefix: u8, network: &mut Ipv4InC) -> u32 {
    if prefix > 32 {
        return PREFIX;
    }
    *network = Ipv4InC {
        address: *address,
        prefix,
    };
    OK
}

const _: () = {
    #[export_name = "ipnetwork_v4_new"]
    extern "C" fn called(address: &[u8; 4], prefix: u8, network: &mut Ipv4InC) -> u32 {
        ipnetwork_v4_new(address, prefix, network)
    }
};

/// The same for IPv6, for prefix lengths up to 128.
#[inline]
pub fn ipnetwork_v6_new(address: &[u8; 16], prefix: u8, network: &mut Ipv6InC) -> u32 {
    if prefix > 128 {
        return PREFIX;
    }
    *network = Ipv6InC {
        address: *address,
        prefix,
    };
    OK
}

const _: () = {
    #[export_name = "ipnetwork_v6_new"]
    extern "C" fn called(address: &[u8; 16], prefix: u8, network: &mut Ipv6InC) -> u32 {
        ipnetwork_v6_new(address, prefix, network)
    }
};

/// Writes the canonical text and a zero byte to `buffer`, for which 19 bytes are enough, and the
/// length of the text, without the zero byte, to `length`. Returns `SHORT_BUFFER` if the buffer has
/// no room for both, and then writes only the length; `PREFIX` if the prefix length is greater than
/// 32.
#[inline]
pub fn ipnetwork_v4_canonical(
    network: &Ipv4InC,
    buffer: &mut [u8],
    length: &mut usize,
) -> u32 {
    match network.network() {
        Some(network) => text::tell(network.canonical().as_bytes(), buffer, length),
        None => PREFIX,
    }
}

const _: () = {
    #[export_name = "ipnetwork_v4_canonical"]
    unsafe extern "C" fn called(network: &Ipv4InC, buffer: *mut u8, buffer_length: usize, length: &mut usize) -> u32 {
        unsafe { ipnetwork_v4_canonical(network, crate::lent::lent_mut(buffer, buffer_length), length) }
    }
};

/// The same for IPv6, for prefix lengths up to 128. 44 bytes are enough.
#[inline]
pub fn ipnetwork_v6_canonical(
    network: &Ipv6InC,
    buffer: &mut [u8],
    length: &mut usize,
) -> u32 {
    match network.network() {
        Some(network) => text::tell(network.canonical().as_bytes(), buffer, length),
        None => PREFIX,
    }
}

const _: () = {
    #[export_name = "ipnetwork_v6_canonical"]
    unsafe extern "C" fn called(network: &Ipv6InC, buffer: *mut u8, buffer_length: usize, length: &mut usize) -> u32 {
        unsafe { ipnetwork_v6_canonical(network, crate::lent::lent_mut(buffer, buffer_length), length) }
    }
};

/// Writes to `answer` 1 if an address is in the network, else 0. Returns `PREFIX` if the prefix
/// length is greater than 32.
#[inline]
pub fn ipnetwork_v4_contains(
    network: &Ipv4InC,
    address: &[u8; 4],
    answer: &mut u8,
) -> u32 {
    let Some(v4) = network.network() else {
        return PREFIX;
    };
    *answer = u8::from(v4.contains(Ipv4Addr::from(*address)));
    OK
}

const _: () = {
    #[export_name = "ipnetwork_v4_contains"]
    extern "C" fn called(network: &Ipv4InC, address: &[u8; 4], answer: &mut u8) -> u32 {
        ipnetwork_v4_contains(network, address, answer)
    }
};

/// The same for IPv6, for prefix lengths up to 128.
#[inline]
pub fn ipnetwork_v6_contains(
    network: &Ipv6InC,
    address: &[u8; 16],
    answer: &mut u8,
) -> u32 {
    let Some(member) = network.contains(address) else {
        return PREFIX;
    };
    *answer = u8::from(member);
    OK
}

const _: () = {
    #[export_name = "ipnetwork_v6_contains"]
    extern "C" fn called(network: &Ipv6InC, address: &[u8; 16], answer: &mut u8) -> u32 {
        ipnetwork_v6_contains(network, address, answer)
    }
};

/// Writes the least member: the address with its host bits cleared. Returns `PREFIX` if the prefix
/// length is greater than 32.
#[inline]
pub fn ipnetwork_v4_network(network: &Ipv4InC, address: &mut [u8; 4]) -> u32 {
    let Some(v4) = network.network() else {
        return PREFIX;
    };
    *address = v4.network().octets();
    OK
}

const _: () = {
    #[export_name = "ipnetwork_v4_network"]
    extern "C" fn called(network: &Ipv4InC, address: &mut [u8; 4]) -> u32 {
        ipnetwork_v4_network(network, address)
    }
};

/// The same for IPv6, for prefix lengths up to 128.
#[inline]
pub fn ipnetwork_v6_network(network: &Ipv6InC, address: &mut [u8; 16]) -> u32 {
    let Some(v6) = network.network() else {
        return PREFIX;
    };
    *address = v6.network().octets();
    OK
}

const _: () = {
    #[export_name = "ipnetwork_v6_network"]
    extern "C" fn called(network: &Ipv6InC, address: &mut [u8; 16]) -> u32 {
        ipnetwork_v6_network(network, address)
    }
};

/// Writes the greatest member: the address with its host bits set. Returns `PREFIX` if the prefix
/// length is greater than 32.
#[inline]
pub fn ipnetwork_v4_broadcast(network: &Ipv4InC, address: &mut [u8; 4]) -> u32 {
    let Some(v4) = network.network() else {
        return PREFIX;
    };
    *address = v4.broadcast().octets();
    OK
}

const _: () = {
    #[export_name = "ipnetwork_v4_broadcast"]
    extern "C" fn called(network: &Ipv4InC, address: &mut [u8; 4]) -> u32 {
        ipnetwork_v4_broadcast(network, address)
    }
};

/// The same for IPv6, for prefix lengths up to 128.
#[inline]
pub fn ipnetwork_v6_broadcast(network: &Ipv6InC, address: &mut [u8; 16]) -> u32 {
    let Some(v6) = network.network() else {
        return PREFIX;
    };
    *address = v6.broadcast().octets();
    OK
}

const _: () = {
    #[export_name = "ipnetwork_v6_broadcast"]
    extern "C" fn called(network: &Ipv6InC, address: &mut [u8; 16]) -> u32 {
        ipnetwork_v6_broadcast(network, address)
    }
};

/// Writes the mask: as many leading 1 bits as the prefix length, and zeros after them. Returns
/// `PREFIX` if the prefix length is greater than 32.
#[inline]
pub fn ipnetwork_v4_mask(network: &Ipv4InC, mask: &mut [u8; 4]) -> u32 {
    let Some(v4) = network.network() else {
        return PREFIX;
    };
    *mask = v4.mask().octets();
    OK
}

const _: () = {
    #[export_name = "ipnetwork_v4_mask"]
    extern "C" fn called(network: &Ipv4InC, mask: &mut [u8; 4]) -> u32 {
        ipnetwork_v4_mask(network, mask)
    }
};

/// The same for IPv6, for prefix lengths up to 128.
#[inline]
pub fn ipnetwork_v6_mask(network: &Ipv6InC, mask: &mut [u8; 16]) -> u32 {
    let Some(v6) = network.network() else {
        return PREFIX;
    };
    *mask = v6.mask().octets();
    OK
}

const _: () = {
    #[export_name = "ipnetwork_v6_mask"]
    extern "C" fn called(network: &Ipv6InC, mask: &mut [u8; 16]) -> u32 {
        ipnetwork_v6_mask(network, mask)
    }
};

/// Writes the prefix length of a mask. Returns `NO_MASK` if the address is not one of the 33 masks.
#[inline]
pub fn ipnetwork_v4_prefix_of_mask(mask: &[u8; 4], prefix: &mut u8) -> u32 {
    let Some(found) = Ipv4Addr::from(*mask).prefix_of_mask() else {
        return NO_MASK;
    };
    *prefix = found;
    OK
}

const _: () = {
    #[export_name = "ipnetwork_v4_prefix_of_mask"]
    extern "C" fn called(mask: &[u8; 4], prefix: &mut u8) -> u32 {
        ipnetwork_v4_prefix_of_mask(mask, prefix)
    }
};

/// The same for IPv6 and its 129 masks.
#[inline]
pub fn ipnetwork_v6_prefix_of_mask(mask: &[u8; 16], prefix: &mut u8) -> u32 {
    let Some(found) = address_of(mask).prefix_of_mask() else {
        return NO_MASK;
    };
    *prefix = found;
    OK
}

const _: () = {
    #[export_name = "ipnetwork_v6_prefix_of_mask"]
    extern "C" fn called(mask: &[u8; 16], prefix: &mut u8) -> u32 {
        ipnetwork_v6_prefix_of_mask(mask, prefix)
    }
};

/// Writes to `answer` 1 if each member of `inner` is a member of `outer`, else 0. Host bits are
/// ignored. Returns `PREFIX` if a prefix length is greater than 32.
#[inline]
pub fn ipnetwork_v4_is_subnet_of(
    inner: &Ipv4InC,
    outer: &Ipv4InC,
    answer: &mut u8,
) -> u32 {
    match (inner.network(), outer.network()) {
        (Some(inner), Some(outer)) => {
            *answer = u8::from(inner.is_subnet_of(outer));
            OK
        }
        _ => PREFIX,
    }
}

const _: () = {
    #[export_name = "ipnetwork_v4_is_subnet_of"]
    extern "C" fn called(inner: &Ipv4InC, outer: &Ipv4InC, answer: &mut u8) -> u32 {
        ipnetwork_v4_is_subnet_of(inner, outer, answer)
    }
};

/// The same for IPv6, for prefix lengths up to 128.
#[inline]
pub fn ipnetwork_v6_is_subnet_of(
    inner: &Ipv6InC,
    outer: &Ipv6InC,
    answer: &mut u8,
) -> u32 {
    match (inner.network(), outer.network()) {
        (Some(inner), Some(outer)) => {
            *answer = u8::from(inner.is_subnet_of(outer));
            OK
        }
        _ => PREFIX,
    }
}

const _: () = {
    #[export_name = "ipnetwork_v6_is_subnet_of"]
    extern "C" fn called(inner: &Ipv6InC, outer: &Ipv6InC, answer: &mut u8) -> u32 {
        ipnetwork_v6_is_subnet_of(inner, outer, answer)
    }
};

/// Writes to `answer` 1 if some address is a member of both networks, else 0. Returns `PREFIX` if a
/// prefix length is greater than 32.
#[inline]
pub fn ipnetwork_v4_overlaps(one: &Ipv4InC, other: &Ipv4InC, answer: &mut u8) -> u32 {
    match (one.network(), other.network()) {
        (Some(one), Some(other)) => {
            *answer = u8::from(one.overlaps(other));
            OK
        }
        _ => PREFIX,
    }
}

const _: () = {
    #[export_name = "ipnetwork_v4_overlaps"]
    extern "C" fn called(one: &Ipv4InC, other: &Ipv4InC, answer: &mut u8) -> u32 {
        ipnetwork_v4_overlaps(one, other, answer)
    }
};

/// The same for IPv6, for prefix lengths up to 128.
#[inline]
pub fn ipnetwork_v6_overlaps(one: &Ipv6InC, other: &Ipv6InC, answer: &mut u8) -> u32 {
    match (one.network(), other.network()) {
        (Some(one), Some(other)) => {
            *answer = u8::from(one.overlaps(other));
            OK
        }
        _ => PREFIX,
    }
}

const _: () = {
    #[export_name = "ipnetwork_v6_overlaps"]
    extern "C" fn called(one: &Ipv6InC, other: &Ipv6InC, answer: &mut u8) -> u32 {
        ipnetwork_v6_overlaps(one, other, answer)
    }
};

/// Writes to `order` which of two networks comes first, by address, host bits included, and then by
/// prefix length: -1 if `one` does, 1 if `other` does, 0 if they are equal. Returns `PREFIX` if a
/// prefix length is greater than 32.
#[inline]
pub fn ipnetwork_v4_compare(one: &Ipv4InC, other: &Ipv4InC, order: &mut i32) -> u32 {
    match (one.network(), other.network()) {
        (Some(one), Some(other)) => {
            *order = number_of_order(one.cmp(&other));
            OK
        }
        _ => PREFIX,
    }
}

const _: () = {
    #[export_name = "ipnetwork_v4_compare"]
    extern "C" fn called(one: &Ipv4InC, other: &Ipv4InC, order: &mut i32) -> u32 {
        ipnetwork_v4_compare(one, other, order)
    }
};

/// The same for IPv6, for prefix lengths up to 128.
#[inline]
pub fn ipnetwork_v6_compare(one: &Ipv6InC, other: &Ipv6InC, order: &mut i32) -> u32 {
    match (one.network(), other.network()) {
        (Some(one), Some(other)) => {
            *order = number_of_order(one.cmp(&other));
            OK
        }
        _ => PREFIX,
    }
}

const _: () = {
    #[export_name = "ipnetwork_v6_compare"]
    extern "C" fn called(one: &Ipv6InC, other: &Ipv6InC, order: &mut i32) -> u32 {
        ipnetwork_v6_compare(one, other, order)
    }
};
