// Written by scripts/plain out of crates/ipnetwork_index/src/block_index.rt

//! The index of the blocks of a list.

use crate::plain_std::vec::Vec;
use crate::ipnetwork_index::indexed_network::IndexedNetwork;
use crate::ipnetwork_index::listing::entries_of_list;
use crate::ipnetwork_index::ranges::Ranges;
use crate::plain_std::alloc::{AllocError, Global};

/// The blocks of a list of networks, which is searched for the longest block of addresses and does
/// not change: a `RouteIndex` that is made without a table.
///
/// ```
/// # use fosibegan_core::in_examples::*;
/// # ended(|| {
/// let networks = ["10.1.9.32/16".parse::<Ipv4Network>()?, "10.0.0.0/8".parse()?];
/// let index = BlockIndex::from_networks(Global, &networks, 2)?;
/// assert_eq!(index.lookup(Ipv4Addr::new(10, 1, 9, 32)), Some(("10.1.0.0/16".parse()?, 2)));
/// # Ok(())
/// # });
/// ```
pub struct BlockIndex<N: IndexedNetwork, V: Copy> {
    // The blocks in order, each once.
    entries: Vec<(N, V)>,
    ranges: Ranges<N, V>,
}

impl<N: IndexedNetwork, V: Copy> BlockIndex<N, V> {
    /// The index of the blocks of networks, which may have host bits and be in any order; each
    /// block gets this value. Sorts the blocks, and where they begin and end. `AllocError` when out
    /// of memory.
    ///
    /// ```
    /// # use fosibegan_core::in_examples::*;
    /// # ended(|| {
    /// let networks = ["2001:db8::1/32".parse::<Ipv6Network>()?];
    /// let index = BlockIndex::from_networks(Global, &networks, ())?;
    /// assert_eq!(index.lookup("2001:db9::".parse()?), None);
    /// # Ok(())
    /// # });
    /// ```
    pub fn from_networks(alloc: Global, networks: &[N], value: V) -> Result<Self, AllocError> {
        let entries = entries_of_list(alloc, networks, value)?;
        let ranges = Ranges::of(alloc, entries.as_slice())?;
        Ok(BlockIndex { entries, ranges })
    }

    /// The block with the greatest prefix length that holds the address, and the value; `None` if
    /// no block holds the address.
    ///
    /// ```
    /// # use fosibegan_core::in_examples::*;
    /// # ended(|| {
    /// let networks = ["10.0.0.0/8".parse::<Ipv4Network>()?];
    /// let index = BlockIndex::from_networks(Global, &networks, 2)?;
    /// assert_eq!(index.lookup(Ipv4Addr::new(10, 1, 9, 32)), Some(("10.0.0.0/8".parse()?, 2)));
    /// assert_eq!(index.lookup(Ipv4Addr::new(11, 0, 0, 0)), None);
    /// # Ok(())
    /// # });
    /// ```
    pub fn lookup(&self, addr: N::Addr) -> Option<(N, V)> {
        self.ranges.lookup(addr)
    }
}
