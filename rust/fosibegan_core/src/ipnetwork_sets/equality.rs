// Written by scripts/plain out of crates/ipnetwork_sets/src/equality.rt

//! Equality of sets.

use crate::ipnetwork_sets::address_set::AddressSet;
use crate::ipnetwork_blocks::AddressSpace;

/// Two sets are equal exactly if they have the same addresses (`laws::equality`). This is
/// tested by comparing their blocks.
impl<N: AddressSpace> PartialEq for AddressSet<N> {
    fn eq(&self, other: &AddressSet<N>) -> bool {
        let first = self.blocks();
        let second = other.blocks();
        first == second
    }
}
