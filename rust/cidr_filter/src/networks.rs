// Written by scripts/plain out of crates/cidr_filter/src/networks.rt

//! Whether the lists cover a network.

use fosibegan_core::ipnetwork::{IpAddr, IpNetwork};
use fosibegan_core::ipnetwork_sets::IpAddressSet;
use cidr_programs::log_programs::unmapping::asked_network;

/// Returns whether the text names a network whose addresses are all in the set, or, if `mapped` and
/// all of them are IPv4-mapped, whose addresses' IPv4 addresses are.
pub(crate) fn covers(set: &IpAddressSet, mapped: bool, text: &[u8]) -> bool {
    match IpNetwork::read_bytes(text) {
        Ok(network) => covers_form(set, mapped, &network),
        Err(_) => false,
    }
}

// The same for the network itself.
fn covers_form(set: &IpAddressSet, mapped: bool, network: &IpNetwork) -> bool {
    covers_either(set, asked_network(mapped, *network), *network)
}

// Returns whether every address of one of two networks is in the set.
fn covers_either(set: &IpAddressSet, first: IpNetwork, second: IpNetwork) -> bool {
    if first == second {
        return covers_network(set, first);
    }
    covers_network(set, first) || covers_network(set, second)
}

// Returns whether every address of the network is in the set.
fn covers_network(set: &IpAddressSet, network: IpNetwork) -> bool {
    // The contracts of these calls state the invariants of the set and of the network.
    let _ = set.iter();
    let _ = network.ip();
    set.covers(network)
}

/// Returns the address of the network that the text names, or `other` if it names none. For a
/// network whose addresses are all IPv4-mapped, that is an IPv4 address.
pub(crate) fn address_named(text: &[u8], other: IpAddr) -> IpAddr {
    match IpNetwork::read_bytes(text) {
        Ok(network) => asked_network(true, network).ip(),
        Err(_) => other,
    }
}
