// Written by scripts/plain out of crates/ipnetwork_c/src/block_calls.rt

//! The blocks of a range of addresses, and the numbered blocks within a network.

use crate::fault::{NO_MEMBER, NO_RANGE, OK, PREFIX, SHORT_BUFFER};
use crate::structs::{Ipv4InC, Ipv6InC, number_of};
use crate::writing::{put_blocks, to_usize};
use fosibegan_core::ipnetwork_blocks::{
    AddressSpace, HoldsNetwork, RangeBlocks, range_to_blocks, subnet_at,
};

/// Puts the blocks of a range at the front of `blocks`, and their number in `count`.
pub(crate) fn range<N: AddressSpace, H: HoldsNetwork<N>>(
    first: N::Addr,
    last: N::Addr,
    blocks: &mut [H],
    count: &mut usize,
) -> u32 {
    let Some(counted) = range_to_blocks::<N>(first, last) else {
        return NO_RANGE;
    };
    let wanted = put_blocks::<N, H, RangeBlocks<N>>(counted, &mut []);
    *count = to_usize(wanted);
    if wanted > blocks.len() as u128 {
        return SHORT_BUFFER;
    }
    let Some(range) = range_to_blocks::<N>(first, last) else {
        unreachable!()
    };
    put_blocks::<N, H, RangeBlocks<N>>(range, blocks);
    OK
}

/// Writes to `subnet` the block number `number` of this prefix length within the network, counted
/// from 0 in ascending order. Returns `PREFIX` if the network's prefix length or this one is
/// greater than 32, or this one is less than the network's; `NO_MEMBER` if the network has at most
/// `number` such blocks.
#[inline]
pub fn ipnetwork_v4_subnet_at(
    network: &Ipv4InC,
    prefix: u8,
    number: u32,
    subnet: &mut Ipv4InC,
) -> u32 {
    let Some(network) = network.network() else {
        return PREFIX;
    };
    if prefix < network.prefix() || prefix > 32 {
        return PREFIX;
    }
    match subnet_at(network, prefix, u128::from(number)) {
        Some(block) => {
            *subnet = Ipv4InC::of(&block);
            OK
        }
        None => NO_MEMBER,
    }
}

const _: () = {
    #[export_name = "ipnetwork_v4_subnet_at"]
    extern "C" fn called(network: &Ipv4InC, prefix: u8, number: u32, subnet: &mut Ipv4InC) -> u32 {
        ipnetwork_v4_subnet_at(network, prefix, number, subnet)
    }
};

/// The same for IPv6, for prefix lengths up to 128. The number is 16 octets, the highest first.
#[inline]
pub fn ipnetwork_v6_subnet_at(
    network: &Ipv6InC,
    prefix: u8,
    number: &[u8; 16],
    subnet: &mut Ipv6InC,
) -> u32 {
    let Some(network) = network.network() else {
        return PREFIX;
    };
    if prefix < network.prefix() || prefix > 128 {
        return PREFIX;
    }
    match subnet_at(network, prefix, number_of(number)) {
        Some(block) => {
            *subnet = Ipv6InC::of(&block);
            OK
        }
        None => NO_MEMBER,
    }
}

const _: () = {
    #[export_name = "ipnetwork_v6_subnet_at"]
    extern "C" fn called(network: &Ipv6InC, prefix: u8, number: &[u8; 16], subnet: &mut Ipv6InC) -> u32 {
        ipnetwork_v6_subnet_at(network, prefix, number, subnet)
    }
};
