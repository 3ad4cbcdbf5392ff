// Written by scripts/plain out of crates/cidr/src/commands/has.rt

//! `has` and `has4`: whether a network contains an address.

use crate::commands::reading::{address_of, network_of};
use crate::replies::reply;
use fosibegan_core::ipnetwork::{Ipv4Addr, Ipv4Network};
use cidr_programs::lines::buffer::Buffer;

/// The answers if a text names no network or no address.
const NO_NETWORK: &str = "refused network";

const NO_ADDRESS: &str = "refused address";

/// The answers if the network contains the address, and if it does not.
const YES: &str = "yes";

const NO: &str = "no";

/// `has`: whether a network contains an address, each of either family.
pub(crate) fn has(network: &[u8], address: &[u8], replies: &mut Buffer<'_>) {
    // Does nothing: the proof of this body needs the law.
    let Ok(network) = network_of(network) else {
        reply(replies, NO_NETWORK);
        return;
    };
    let Some(address) = address_of(address) else {
        reply(replies, NO_ADDRESS);
        return;
    };
    reply_whether(network.contains(address), replies);
}

/// `has4`: whether an IPv4 network contains an IPv4 address.
pub(crate) fn has4(network: &[u8], address: &[u8], replies: &mut Buffer<'_>) {
    // Does nothing: the proof of this body needs the laws.
    let Ok(network) = Ipv4Network::read_bytes(network) else {
        reply(replies, NO_NETWORK);
        return;
    };
    let Ok(address) = Ipv4Addr::read_bytes(address) else {
        reply(replies, NO_ADDRESS);
        return;
    };
    reply_whether(network.contains(address), replies);
}

/// Adds the answer, which says whether the network contains the address.
#[inline(always)]
fn reply_whether(contains: bool, replies: &mut Buffer<'_>) {
    if contains {
        reply(replies, YES);
    } else {
        reply(replies, NO);
    }
}
