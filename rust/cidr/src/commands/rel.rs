// Written by scripts/plain out of crates/cidr/src/commands/rel.rt

//! `rel`: how the sets of two networks are related.

use crate::commands::REFUSED;
use crate::commands::reading::network_of;
use crate::replies::reply;
use fosibegan_core::ipnetwork::IpNetwork;
use cidr_programs::lines::buffer::Buffer;

/// `rel`: how the sets of two networks are related.
pub(crate) fn rel(first: &[u8], second: &[u8], replies: &mut Buffer<'_>) {
    match (network_of(first), network_of(second)) {
        (Ok(first), Ok(second)) => reply(replies, relation(first, second)),
        _ => reply(replies, REFUSED),
    }
}

/// Returns how the sets of two networks are related.
fn relation(first: IpNetwork, second: IpNetwork) -> &'static str {
    if is_part(&first, &second) {
        if is_part(&second, &first) {
            "same"
        } else {
            "inside"
        }
    } else if is_part(&second, &first) {
        "around"
    } else {
        "apart"
    }
}

/// Returns whether the set of a network is a subset of that of another.
fn is_part(network: &IpNetwork, other: &IpNetwork) -> bool {
    // Does nothing: the proof of this body needs the law, and the facts from the next two calls
    // that these are networks.
    let _ = network.prefix();
    let _ = other.prefix();
    network.is_subnet_of(*other)
}
