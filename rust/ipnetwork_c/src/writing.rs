// Written by scripts/plain out of crates/ipnetwork_c/src/writing.rt

//! Puts blocks into a list in the caller's memory, one after the other, and counts them.

use fosibegan_core::ipnetwork_blocks::{AddressSpace, HoldsNetwork};

/// Returns the number, or 2^64 - 1 if that is less.
pub(crate) fn to_usize(number: u128) -> usize {
    if number > usize::MAX as u128 {
        return usize::MAX;
    }
    number as usize
}

// Puts the block at index `count`, if there is room.
fn put<N: AddressSpace, H: HoldsNetwork<N>>(list: &mut [H], count: u128, block: N) {
    if count >= list.len() as u128 {
        return;
    }
    list[count as usize] = H::holding(block);
}

/// Puts the blocks of the iterator at the front of the list, as far as there is room. Returns how
/// many there are, at most 2^128 - 1.
pub(crate) fn put_blocks<N: AddressSpace, H: HoldsNetwork<N>, I: Iterator<Item = N>>(
    blocks: I,
    list: &mut [H],
) -> u128 {
    let mut count = 0u128;
    for block in blocks {
        put::<N, H>(list, count, block);
        count = count.saturating_add(1);
    }
    count
}
