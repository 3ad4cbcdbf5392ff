// Written by scripts/plain out of crates/ipnetwork_c/src/search_columns.rt

//! Searches lists for many addresses in one call, a row for each.

use crate::fault::{OK, SHORT_BUFFER};
use crate::guesses::Guesses;
use crate::halves::{self, Parts};
use crate::ranges::place_near;
use crate::search_hint::SearchHint;
use crate::structs::{Ipv4InC, Ipv6InC, number_of_four};
use crate::{sets, tables};
use fosibegan_core::ipnetwork::{Ipv4Network, Ipv6Network};
use fosibegan_core::ipnetwork_blocks::AddressSpace;

/// Returns the fault of the call that searches a set for one address, as a byte, with a guess of
/// where the search ends.
#[inline(always)]
pub(crate) fn v4_contains(
    blocks: &[Ipv4InC],
    index: &[u32],
    address: &[u8; 4],
    guess: usize,
    answer: &mut u8,
) -> u8 {
    let number = number_of_four(address);
    sets::contains_near::<Ipv4Network, Ipv4InC>(blocks, index, number, guess, answer) as u8
}

/// The same for IPv6; the high half of the address is tried first.
pub(crate) fn v6_contains(
    blocks: &[Ipv6InC],
    index: &[u32],
    parts: Option<Parts>,
    address: &[u8; 16],
    answer: &mut u8,
) -> u8 {
    if let Some(parts) = parts {
        if let Some(found) = halves::contains(blocks, index, parts, address) {
            *answer = found;
            return OK as u8;
        }
    }
    sets::contains::<Ipv6Network, Ipv6InC>(blocks, index, address, answer) as u8
}

/// Puts for each address the place of the longest block that has it, and the fault of the call, by
/// an index of the blocks, or by none.
#[inline(always)]
pub(crate) fn table_find_each<N: AddressSpace, H: SearchHint<N>>(
    blocks: &[H],
    index: &[u32],
    addresses: &[H::Octets],
    places: &mut [usize],
    faults: &mut [u8],
) -> u32 {
    if places.len() < addresses.len() || faults.len() < addresses.len() {
        return SHORT_BUFFER;
    }
    for (row, address) in addresses.iter().enumerate() {
        faults[row] = table_find_one::<N, H>(blocks, index, address, &mut places[row]);
    }
    OK
}

// Returns the fault of the call for one address, as a byte.
#[inline(always)]
fn table_find_one<N: AddressSpace, H: SearchHint<N>>(
    blocks: &[H],
    index: &[u32],
    address: &H::Octets,
    place: &mut usize,
) -> u8 {
    tables::find::<N, H>(blocks, index, H::address_in(address), place) as u8
}

/// Puts for each address its place by the ranges, and the fault of the call.
#[inline(always)]
pub(crate) fn ranges_find_each<N: AddressSpace, H: SearchHint<N>>(
    addresses: &[H::Octets],
    places: &mut [usize],
    faults: &mut [u8],
    ranges: &[H],
    told: &[usize],
    index: &[u32],
) -> u32 {
    let mut guesses = Guesses::new();
    if places.len() < addresses.len() || faults.len() < addresses.len() {
        return SHORT_BUFFER;
    }
    for (row, address) in addresses.iter().enumerate() {
        let near = guesses.of_row::<N, H>(ranges, index, addresses, row);
        faults[row] = ranges_find_one::<N, H>(address, near, &mut places[row], ranges, told, index);
    }
    OK
}

// Returns the fault of the call for one address, as a byte.
#[inline(always)]
fn ranges_find_one<N: AddressSpace, H: SearchHint<N>>(
    address: &H::Octets,
    guess: usize,
    place: &mut usize,
    ranges: &[H],
    told: &[usize],
    index: &[u32],
) -> u8 {
    let number = H::number_in(address);
    place_near::<N, H>(ranges, told, index, number, guess, place) as u8
}
