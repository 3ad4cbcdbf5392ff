// Written by scripts/plain out of crates/ipnetwork_c/src/range_making.rt

//! Divides tables into ranges of addresses that all have the same longest block, in the caller's
//! memory.

use crate::fault::{OK, PREFIX, SHORT_BUFFER};
use crate::listed::all_fit;
use crate::search_hint::SearchHint;
use crate::tables::find;
use fosibegan_core::ipnetwork_blocks::AddressSpace;

/// The place that means no block.
pub(crate) const NO_PLACE: usize = usize::MAX;

/// Sorts the addresses at which the blocks begin and after which they end, and searches the blocks,
/// by an index of them or by none, for the first address of each range.
pub(crate) fn make<N: AddressSpace, H: SearchHint<N>>(
    blocks: &[H],
    index: &[u32],
    ranges: &mut [H],
    places: &mut [usize],
    count: &mut usize,
) -> u32 {
    if !all_fit::<N, H>(blocks) {
        return PREFIX;
    }
    if ranges.len() / 2 < blocks.len() || places.len() / 2 < blocks.len() {
        return SHORT_BUFFER;
    }
    let made = put_cuts::<N, H>(blocks, ranges);
    ranges[..made].sort_unstable();
    put_places::<N, H>(blocks, index, &ranges[..made], &mut places[..made]);
    *count = made;
    OK
}

/// The same, and then replaces the place of each range by the number at that place.
pub(crate) fn make_numbered<N: AddressSpace, H: SearchHint<N>>(
    blocks: &[H],
    numbers: &[usize],
    index: &[u32],
    ranges: &mut [H],
    beside: &mut [usize],
    count: &mut usize,
) -> u32 {
    if numbers.len() < blocks.len() {
        return SHORT_BUFFER;
    }
    let made = make::<N, H>(blocks, index, ranges, beside, count);
    if made == OK {
        put_numbers(numbers, &mut beside[..*count]);
    }
    made
}

// Replaces each place by the number at it; `NO_PLACE` stays.
fn put_numbers(numbers: &[usize], places: &mut [usize]) {
    for row in 0..places.len() {
        places[row] = number_at(numbers, places[row]);
    }
}

// Returns the number at a place, or `NO_PLACE` if there is none.
fn number_at(numbers: &[usize], place: usize) -> usize {
    if place < numbers.len() {
        numbers[place]
    } else {
        NO_PLACE
    }
}

// Puts the first address of each block and the address after its last, and returns their number.
fn put_cuts<N: AddressSpace, H: SearchHint<N>>(blocks: &[H], ranges: &mut [H]) -> usize {
    let mut count = 0;
    for row in 0..blocks.len() {
        count = put_ends::<N, H>(blocks[row].held_network(), ranges, count);
    }
    count
}

// Puts, from index `count` on, the first address of the block and the address after its last, if
// there is one. Returns the index after them.
fn put_ends<N: AddressSpace, H: SearchHint<N>>(block: N, ranges: &mut [H], count: usize) -> usize {
    let _ = block.prefix();
    put_first::<N, H>(block.network(), ranges, count);
    match N::next_address(block.broadcast()) {
        Some(next) => {
            put_first::<N, H>(next, ranges, count + 1);
            count + 2
        }
        None => count + 1,
    }
}

// Puts the network of only this address at a place.
fn put_first<N: AddressSpace, H: SearchHint<N>>(address: N::Addr, ranges: &mut [H], place: usize) {
    let width = (H::half() + 1) as u8;
    ranges[place] = H::holding(N::block_at(address, width));
}

// Puts for each range the place of the longest block with the range's first address.
fn put_places<N: AddressSpace, H: SearchHint<N>>(
    blocks: &[H],
    index: &[u32],
    ranges: &[H],
    places: &mut [usize],
) {
    for row in 0..ranges.len() {
        places[row] = place_of::<N, H>(blocks, index, ranges[row].own_address());
    }
}

// Returns the place of the longest block with the address, or `NO_PLACE`.
fn place_of<N: AddressSpace, H: SearchHint<N>>(
    blocks: &[H],
    index: &[u32],
    address: N::Addr,
) -> usize {
    let mut place = NO_PLACE;
    let _ = find::<N, H>(blocks, index, address, &mut place);
    place
}
