// Written by scripts/plain out of crates/reducing/src/reduction.rt

//! A list whose neighbours are joined until there are few blocks.

use fosibegan_core::plain_std::vec::Vec;
use crate::reducing::tree_list::TreeList;
use fosibegan_core::ipnetwork_blocks::AddressSpace;
use fosibegan_core::ipnetwork_sets::AddressSet;
use fosibegan_core::plain_std::alloc::{AllocError, Global};

/// A list of blocks that has all the addresses of a set, and the number of its addresses that are
/// not in the set.
pub struct Reduced<N> {
    /// The blocks, in ascending order.
    pub blocks: Vec<N>,
    /// The number of other addresses in the blocks.
    pub others: u128,
}

/// Joins blocks of a set until at most `most` blocks are left, or one.
///
/// Each step joins two neighbours into the smallest block that contains both: those that have the
/// fewest other addresses in it, and of several the first. `AllocError` means that memory ran out;
/// the set is then lost.
///
/// Allocates a place in a tree for each block. A join changes a few places of each level of the
/// tree, so the time of a block grows with the logarithm of their number.
///
/// ```
/// # use cidr_programs::in_examples::*;
/// # use fosibegan_core::plain_std::vec;
/// # ended(|| {
/// let list = vec![in Global; "10.0.0.0/24".parse::<Ipv4Network>()?, "10.0.2.0/24".parse()?]?;
/// let reduced = reduce(Global, AddressSet::from_networks(list), 1)?;
/// assert_eq!(reduced.blocks.as_slice(), ["10.0.0.0/22".parse()?].as_slice());
/// assert_eq!(reduced.others, 512);
/// # Ok(())
/// # });
/// ```
pub fn reduce<N: AddressSpace>(
    alloc: Global,
    set: AddressSet<N>,
    most: usize,
) -> Result<Reduced<N>, AllocError> {
    let blocks = set.into_blocks();
    let mut list = TreeList::new(alloc, blocks.as_slice())?;
    let mut others = 0;
    while list.len() > most && list.len() > 1 {
        let least = list.least();
        list.join_least(least);
        others += least;
    }
    Ok(Reduced {
        blocks: list.into_blocks(blocks)?,
        others,
    })
}
