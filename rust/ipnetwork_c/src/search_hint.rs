// Written by scripts/plain out of crates/ipnetwork_c/src/search_hint.rt

//! Whether a C struct seems to begin at or before a number, by the first bits of its address: a
//! search uses this to guess in few steps where it ends, and then checks the guess.

use crate::numbered::Numbered;
use fosibegan_core::ipnetwork_blocks::AddressSpace;

/// A C struct of which a few bits mostly decide whether it begins at or before a number.
pub(crate) trait SearchHint<N: AddressSpace>: Numbered<N> {
    /// Returns whether the first 64 bits of the address, or all bits if it has fewer, are at most
    /// those of the number: true for each address up to the number, and rarely for another.
    fn seems_up_to(&self, number: Self::Number) -> bool;
}
