// Written by scripts/plain out of crates/ipnetwork_sets/src/text.rt

//! The text of a set.

use crate::ipnetwork_sets::address_set::AddressSet;
use crate::ipnetwork_family::{Address, Network};
use core::fmt;

/// Prints the canonical texts of the blocks, in ascending order, each on a line of its own: a list
/// file of the set.
impl<A: Address> fmt::Display for AddressSet<Network<A>> {
    fn fmt(&self, f: &mut fmt::Formatter<'_>) -> fmt::Result {
        let blocks = self.blocks();
        for block in blocks {
            f.write_str(block.canonical().as_str())?;
            f.write_str("\n")?;
        }
        Ok(())
    }
}
