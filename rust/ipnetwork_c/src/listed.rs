// Written by scripts/plain out of crates/ipnetwork_c/src/listed.rt

//! The C structs as items of a list in the caller's memory: their prefix lengths are unchecked.

use fosibegan_core::ipnetwork_blocks::{AddressSpace, HoldsNetwork};

/// A C struct in a list.
pub(crate) trait Listed<N: AddressSpace>: HoldsNetwork<N> {
    /// Returns the address, host bits kept, whatever the prefix length is.
    fn own_address(&self) -> N::Addr;

    /// Returns whether the prefix length is at most the family's width.
    fn fits(&self) -> bool;
}

/// Returns whether each prefix length is at most the family's width.
pub(crate) fn all_fit<N: AddressSpace, H: Listed<N>>(list: &[H]) -> bool {
    list.iter().all(|held| held.fits())
}
