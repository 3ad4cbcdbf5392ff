// Written by scripts/plain out of crates/ipnetwork_c/src/aggregates.rt

//! Replaces lists of networks by the shortest list of blocks, in place.

use crate::fault::{OK, PREFIX};
use crate::listed::all_fit;
use crate::structs::{Ipv4InC, Ipv6InC};
use fosibegan_core::ipnetwork::{Ipv4Network, Ipv6Network};
use fosibegan_core::ipnetwork_blocks::aggregate_held;

/// Replaces the networks, which may have host bits, by their aggregate, at the front of the list:
/// the fewest blocks with the same addresses, in ascending order. Writes the number of blocks to
/// `count`. The networks after the blocks are unspecified. Returns `PREFIX` if a prefix length is
/// greater than 32.
#[inline]
pub fn ipnetwork_v4_aggregate(networks: &mut [Ipv4InC], count: &mut usize) -> u32 {
    if !all_fit::<Ipv4Network, Ipv4InC>(networks) {
        return PREFIX;
    }
    *count = aggregate_held::<Ipv4Network, Ipv4InC>(networks);
    OK
}

const _: () = {
    #[export_name = "ipnetwork_v4_aggregate"]
    unsafe extern "C" fn called(networks: *mut Ipv4InC, networks_length: usize, count: &mut usize) -> u32 {
        unsafe { ipnetwork_v4_aggregate(crate::lent::lent_mut(networks, networks_length), count) }
    }
};

/// The same for IPv6, for prefix lengths up to 128.
#[inline]
pub fn ipnetwork_v6_aggregate(networks: &mut [Ipv6InC], count: &mut usize) -> u32 {
    if !all_fit::<Ipv6Network, Ipv6InC>(networks) {
        return PREFIX;
    }
    *count = aggregate_held::<Ipv6Network, Ipv6InC>(networks);
    OK
}

const _: () = {
    #[export_name = "ipnetwork_v6_aggregate"]
    unsafe extern "C" fn called(networks: *mut Ipv6InC, networks_length: usize, count: &mut usize) -> u32 {
        unsafe { ipnetwork_v6_aggregate(crate::lent::lent_mut(networks, networks_length), count) }
    }
};
