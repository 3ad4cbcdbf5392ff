// Written by scripts/plain out of crates/cidr_join/src/asked.rt

//! What was found in a line, as a network.

use fosibegan_core::ipnetwork::IpNetwork;
use cidr_programs::line_addresses::Found;

/// What was found in a line, as a network: that which its text names, if `networks`, or that of its
/// one address.
#[inline(always)]
pub(crate) fn network_of(part: &[u8], found: &Found, networks: bool) -> Option<IpNetwork> {
    if networks {
        named_network(&part[found.start..found.end])
    } else {
        Some(IpNetwork::from(found.address))
    }
}

// Returns the network that a text names.
fn named_network(text: &[u8]) -> Option<IpNetwork> {
    match IpNetwork::read_bytes(text) {
        Ok(network) => Some(network),
        Err(_) => None,
    }
}
