// Written by scripts/plain out of crates/ipnetwork_sets/src/free_block.rt

//! The first free block of a prefix length.

use crate::ipnetwork_sets::address_set::AddressSet;
use crate::ipnetwork_blocks::AddressSpace;

impl<N: AddressSpace> AddressSet<N> {
    /// The first block of this prefix length within the network that has no address of the set;
    /// `None` if there is none, as for a prefix length that is shorter than the network's or
    /// greater than `WIDTH`. Host bits of the network are ignored. Goes over the free part of the
    /// network up to that block.
    ///
    /// ```
    /// # use fosibegan_core::in_examples::*;
    /// # use fosibegan_core::plain_std::vec;
    /// # ended(|| {
    /// let set = AddressSet::from_networks(vec![in Global; "192.0.2.0/25".parse::<Ipv4Network>()?]?);
    /// let free = set.first_free("192.0.2.0/24".parse()?, 28);
    /// assert_eq!(free, Some("192.0.2.128/28".parse()?));
    /// # Ok(())
    /// # });
    /// ```
    pub fn first_free(&self, network: N, prefix: u8) -> Option<N> {
        let mut free = self.free_in(network);
        while let Some(piece) = free.next() {
            if piece.prefix() <= prefix {
                return N::block(piece.ip(), prefix);
            }
        }
        None
    }
}
