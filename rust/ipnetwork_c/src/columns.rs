// Written by scripts/plain out of crates/ipnetwork_c/src/columns.rt

//! Checks many addresses against one network in one call, a row for each.

use crate::fault::{OK, PREFIX, SHORT_BUFFER};
use crate::numbered::Numbered;
use fosibegan_core::ipnetwork_blocks::AddressSpace;

/// For each address, writes 1 if it is in the network's set, else 0.
#[inline(always)]
pub(crate) fn contains_each<N: AddressSpace, H: Numbered<N>>(
    network: H,
    addresses: &[H::Octets],
    answers: &mut [u8],
) -> u32 {
    if !network.fits() {
        return PREFIX;
    }
    if answers.len() < addresses.len() {
        return SHORT_BUFFER;
    }
    for (row, address) in addresses.iter().enumerate() {
        answers[row] = flag::<N, H>(network, address);
    }
    OK
}

// Returns 1 if the address is in the network's set, else 0.
#[inline(always)]
fn flag<N: AddressSpace, H: Numbered<N>>(network: H, address: &H::Octets) -> u8 {
    u8::from(network.held_network().contains(H::address_in(address)))
}
