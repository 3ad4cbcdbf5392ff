// Written by scripts/plain out of crates/cidr/src/commands/reading.rt

//! Reads the network or address that a text names, as the definitions compute it.

use fosibegan_core::ipnetwork::{CidrFault, IpAddr, IpNetwork};

/// Returns the network of either family that a text names.
#[inline(always)]
pub(crate) fn network_of(text: &[u8]) -> Result<IpNetwork, CidrFault> {
    // Does nothing: the proof of this body needs the law.
    IpNetwork::read_bytes(text)
}

/// Returns the address of either family that a text names.
#[inline(always)]
pub(crate) fn address_of(text: &[u8]) -> Option<IpAddr> {
    // Does nothing: the proof of this body needs the law.
    IpAddr::read_bytes(text).ok()
}
