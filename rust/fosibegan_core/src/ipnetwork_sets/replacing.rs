// Written by scripts/plain out of crates/ipnetwork_sets/src/replacing.rt

//! Replacing blocks of a list in place.

use crate::plain_std::vec::Vec;
use crate::ipnetwork_blocks::{AddressSpace, Exclusion};
use crate::plain_std::alloc::AllocError;

/// Makes room for `count` blocks in place of those at the indices `from..to`. The blocks after them
/// are moved once. `AllocError` means that the list had to grow and memory ran out; it is then
/// unchanged.
pub(crate) fn make_room<N: AddressSpace>(
    blocks: &mut Vec<N>,
    from: usize,
    to: usize,
    count: u8,
) -> Result<(), AllocError> {
    let len = blocks.len();
    let end = from + usize::from(count);
    blocks.resize(len + end.saturating_sub(to), N::whole())?;
    blocks.copy_within(to..len, end);
    blocks.truncate(len - to + end);
    Ok(())
}

/// Writes the remaining blocks of `others` over those from the index `from` on.
pub(crate) fn write_over<N: AddressSpace>(blocks: &mut [N], from: usize, mut others: Exclusion<N>) {
    let mut next = from;
    while let Some(block) = others.next() {
        blocks[next] = block;
        next += 1;
    }
}
