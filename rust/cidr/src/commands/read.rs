// Written by scripts/plain out of crates/cidr/src/commands/read.rt

//! `read`, `read4` and `read6`: the canonical text of a network.

use crate::commands::REFUSED;
use crate::commands::reading::network_of;
use crate::replies::reply;
use fosibegan_core::ipnetwork::{CidrFault, Ipv4Network, Ipv6Network};
use cidr_programs::lines::buffer::Buffer;

/// `read`: the canonical text of a network of either family.
pub(crate) fn read(word: &[u8], replies: &mut Buffer<'_>) {
    match network_of(word) {
        Ok(network) => reply(replies, network.canonical().as_str()),
        Err(_) => reply(replies, REFUSED),
    }
}

/// `read4`: the canonical text of an IPv4 network, or why the word names none.
pub(crate) fn read4(word: &[u8], replies: &mut Buffer<'_>) {
    // Does nothing: the proof of this body needs the law.
    match Ipv4Network::read_bytes(word) {
        Ok(network) => reply(replies, network.canonical().as_str()),
        Err(fault) => reply(replies, refusal(fault)),
    }
}

/// `read6`: the canonical text of an IPv6 network, or why the word names none.
pub(crate) fn read6(word: &[u8], replies: &mut Buffer<'_>) {
    // Does nothing: the proof of this body needs the law.
    match Ipv6Network::read_bytes(word) {
        Ok(network) => reply(replies, network.canonical().as_str()),
        Err(fault) => reply(replies, refusal(fault)),
    }
}

/// Returns why a text names no network.
fn refusal(fault: CidrFault) -> &'static str {
    match fault {
        CidrFault::Format => "refused format",
        CidrFault::Addr => "refused address",
        CidrFault::Prefix => "refused prefix",
    }
}
