// Written by scripts/plain out of crates/line_addresses/src/network.rt

//! The network of a stretch.

use crate::line_addresses::found::Found;
use crate::line_addresses::named::behind_word;
use crate::line_addresses::run::ends_with_mark;
use fosibegan_core::byte_search::find_from;
use fosibegan_core::ipnetwork::{IpAddr, IpNetwork};

/// Returns the address of the network of a stretch that has a `/`, and the position of the
/// network's text in the stretch.
pub(crate) fn network_in(stretch: &[u8]) -> Option<Found> {
    if !has_slash(stretch) {
        return None;
    }
    if let Some((address, size)) = network_begun_by(stretch) {
        return Some(Found {
            address,
            start: 0,
            end: size,
            next: stretch.len(),
        });
    }
    let start = behind_word(stretch);
    match network_begun_by(&stretch[start..]) {
        Some((address, size)) => Some(Found {
            address,
            start,
            end: start + size,
            next: stretch.len(),
        }),
        None => None,
    }
}

// Returns the address of the network that begins a stretch, and the length of the network's text:
// all of the stretch, or all but a `.` or `:` at its end.
fn network_begun_by(stretch: &[u8]) -> Option<(IpAddr, usize)> {
    if let Some(address) = named_network(stretch) {
        return Some((address, stretch.len()));
    }
    if ends_with_mark(stretch) {
        let end = stretch.len() - 1;
        if let Some(address) = named_network(&stretch[..end]) {
            return Some((address, end));
        }
    }
    None
}

/// Returns the address, host bits kept, of the network that `IpNetwork::read_bytes` reads from a
/// text, or `None` if it refuses the text.
pub(crate) fn named_network(text: &[u8]) -> Option<IpAddr> {
    match IpNetwork::read_bytes(text) {
        Ok(network) => Some(network.ip()),
        Err(_) => None,
    }
}

// Returns whether a text has a `/` and does not begin with one.
fn has_slash(text: &[u8]) -> bool {
    match find_from(text, 0, b'/') {
        Some(at) => at > 0,
        None => false,
    }
}
