// Written by scripts/plain out of crates/ipnetwork_c/src/text.rt

//! Puts texts into a C buffer.

use crate::fault::{OK, SHORT_BUFFER};
use fosibegan_core::ipnetwork::{IpAddr, IpNetwork};

/// Puts a text at the front of a buffer, with a zero byte after it. Nothing else changes. Returns
/// `false` if there is no room, and then nothing changes.
pub(crate) fn put(text: &[u8], buffer: &mut [u8]) -> bool {
    let end = text.len();
    if end >= buffer.len() {
        return false;
    }
    buffer[..end].copy_from_slice(text);
    buffer[end] = 0;
    true
}

/// Puts a text into a buffer, and its length into `length`. Returns `SHORT_BUFFER` if there is no
/// room for the text, and then puts only the length.
pub(crate) fn tell(text: &[u8], buffer: &mut [u8], length: &mut usize) -> u32 {
    *length = text.len();
    if put(text, buffer) { OK } else { SHORT_BUFFER }
}

/// Puts the canonical text of a network of either family, as `tell` does.
pub(crate) fn tell_network(network: &IpNetwork, buffer: &mut [u8], length: &mut usize) -> u32 {
    tell(network.canonical().as_bytes(), buffer, length)
}

/// Puts the canonical text of an address of either family, as `tell` does.
pub(crate) fn tell_address(address: &IpAddr, buffer: &mut [u8], length: &mut usize) -> u32 {
    tell(address.canonical().as_bytes(), buffer, length)
}
