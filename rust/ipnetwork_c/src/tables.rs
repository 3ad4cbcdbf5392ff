// Written by scripts/plain out of crates/ipnetwork_c/src/tables.rt

//! Searches tables of blocks in the caller's memory for the longest block with an address.

use crate::fault::{NO_MEMBER, OK, PREFIX};
use crate::search_hint::SearchHint;
use crate::upper_bound::upper_bound;
use fosibegan_core::ipnetwork_blocks::AddressSpace;

/// Puts the place of the longest block with an address in `place`, by an index of the blocks, or by
/// none. If the last block that begins at or before the address does not have it, a block that does
/// contains both, so it begins no later than the number that has the bits that both share and zeros
/// after them: the search continues with the last block that begins at or before that number.
#[inline(always)]
pub(crate) fn find<N: AddressSpace, H: SearchHint<N>>(
    blocks: &[H],
    index: &[u32],
    address: N::Addr,
    place: &mut usize,
) -> u32 {
    let mut end = upper_bound::<N, H>(blocks, index, H::number_of(address));
    while end > 0 {
        let last = blocks[end - 1];
        if !last.fits() {
            return PREFIX;
        }
        let block = last.held_network();
        if block.contains(address) {
            *place = end - 1;
            return OK;
        }
        let shared = N::shared_bits(block.ip(), address);
        let around = N::block_at(address, shared);
        end = upper_bound::<N, H>(&blocks[..end - 1], index, H::number_of(around.ip()));
    }
    NO_MEMBER
}
