// Written by scripts/plain out of crates/line_addresses/src/picking.rt

//! Picks an address from a part of a line.

use crate::line_addresses::area::Pick;
use crate::line_addresses::found::Found;
use crate::line_addresses::network::named_network;
use crate::line_addresses::run::address_of;
use crate::line_addresses::stretches::next_found;
use fosibegan_core::ipnetwork_addr::IpAddr;

/// Returns the address that is picked from a part of a line, or the first of several; or `None` if
/// there is none. If `networks`, networks count too. The part is scanned at most once.
///
/// ```
/// # use cidr_programs::in_examples::*;
/// # ended(|| {
/// let forwarded = b"10.1.1.1, 192.0.2.7, 198.51.100.9";
/// let second = picked(forwarded, Pick::Number(2), false);
/// assert_eq!(second.map(|found| found.address), Some("192.0.2.7".parse()?));
/// assert_eq!(picked(forwarded, Pick::Whole, false), None);
/// # Ok(())
/// # });
/// ```
#[inline(always)]
pub fn picked(text: &[u8], pick: Pick, networks: bool) -> Option<Found> {
    match pick {
        Pick::Whole => whole(text, networks),
        Pick::Each => next_found(text, 0, networks),
        Pick::Number(number) => numbered(text, number, networks),
        Pick::Last => last(text, networks),
    }
}

// Finds the address that the whole text names, or, if `networks`, the network.
#[inline(always)]
fn whole(text: &[u8], networks: bool) -> Option<Found> {
    match named(text, networks) {
        Some(address) => Some(Found {
            address,
            start: 0,
            end: text.len(),
            next: text.len(),
        }),
        None => None,
    }
}

// Returns the address that a text names, or, if `networks`, that of the network that it names.
#[inline(always)]
fn named(text: &[u8], networks: bool) -> Option<IpAddr> {
    if networks {
        named_network(text)
    } else {
        address_of(text)
    }
}

// Finds the address with this number, from 1 on, in a text.
fn numbered(text: &[u8], number: u32, networks: bool) -> Option<Found> {
    let mut at = 0;
    let mut more = number.saturating_sub(1);
    'addresses: while let Some(found) = next_found(text, at, networks) {
        if more == 0 {
            return Some(found);
        }
        more -= 1;
        at = found.next;
    }
    None
}

// Finds the last address in a text.
fn last(text: &[u8], networks: bool) -> Option<Found> {
    let mut at = 0;
    let mut last = None;
    'addresses: while let Some(found) = next_found(text, at, networks) {
        at = found.next;
        last = Some(found);
    }
    last
}
