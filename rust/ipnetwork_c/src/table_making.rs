// Written by scripts/plain out of crates/ipnetwork_c/src/table_making.rt

//! Makes tables of networks in any order.

use crate::fault::{OK, PREFIX, SHORT_BUFFER};
use crate::listed::{Listed, all_fit};
use fosibegan_core::ipnetwork_blocks::AddressSpace;
use core::cmp::Ordering;

/// Sorts the places of the networks by their blocks, and puts the blocks in that order.
pub(crate) fn make<N: AddressSpace, H: Listed<N>>(
    networks: &[H],
    blocks: &mut [H],
    places: &mut [usize],
) -> u32 {
    if !all_fit::<N, H>(networks) {
        return PREFIX;
    }
    let count = networks.len();
    if blocks.len() < count || places.len() < count {
        return SHORT_BUFFER;
    }
    put_places(&mut places[..count]);
    sort_places::<N, H>(networks, &mut places[..count]);
    put_rows::<N, H>(networks, &places[..count], &mut blocks[..count]);
    OK
}

// Sets each place to its own index.
fn put_places(places: &mut [usize]) {
    for place in 0..places.len() {
        places[place] = place;
    }
}

// Sorts places by the blocks of the networks at them.
fn sort_places<N: AddressSpace, H: Listed<N>>(networks: &[H], places: &mut [usize]) {
    places.sort_unstable_by(|first, second| order_between::<N, H>(networks, *first, *second));
}

// Returns the order of two places: by the blocks of their networks, and then by the places.
fn order_between<N: AddressSpace, H: Listed<N>>(
    networks: &[H],
    first: usize,
    second: usize,
) -> Ordering {
    let one = block_in::<N, H>(networks, first);
    let other = block_in::<N, H>(networks, second);
    one.cmp(&other).then(first.cmp(&second))
}

// Returns the block of the network at a place; past the last place, the network of all addresses.
fn block_in<N: AddressSpace, H: Listed<N>>(networks: &[H], place: usize) -> N {
    let network = match networks.get(place) {
        Some(held) => (*held).held_network(),
        None => N::whole(),
    };
    N::block_at(network.ip(), network.prefix())
}

// Puts the blocks of the networks at these places into `blocks`, one after the other.
fn put_rows<N: AddressSpace, H: Listed<N>>(networks: &[H], places: &[usize], blocks: &mut [H]) {
    for row in 0..places.len() {
        blocks[row] = H::holding(block_in::<N, H>(networks, places[row]));
    }
}
