// Written by scripts/plain out of crates/allotting/src/free.rt

//! The blocks of one prefix length that are free.

use fosibegan_core::ipnetwork_blocks::{AddressSpace, SubnetIterator, subnets};
use fosibegan_core::ipnetwork_sets::{AddressSet, Difference};

/// An iterator over the blocks of one prefix length that are free, in ascending order.
///
/// ```
/// # use cidr_programs::in_examples::*;
/// # use fosibegan_core::plain_std::vec;
/// # ended(|| {
/// let pool = AddressSet::from_networks(vec![in Global; "10.0.0.0/31".parse::<Ipv4Network>()?]?);
/// let used = AddressSet::from_networks(vec![in Global; "10.0.0.0/32".parse()?]?);
/// let mut blocks: FreeBlocks<'_, Ipv4Network> = free_blocks(&pool, &used, 32);
/// assert_eq!(blocks.next(), Some("10.0.0.1/32".parse()?));
/// assert_eq!(blocks.next(), None);
/// # Ok(())
/// # });
/// ```
pub struct FreeBlocks<'a, N: AddressSpace> {
    pieces: Option<SubnetIterator<N>>,
    blocks: Difference<'a, N>,
    prefix: u8,
}

/// The blocks of this prefix length that have only addresses of the pool, and none that is used.
/// Goes over both lists once, as the iterator advances.
///
/// ```
/// # use cidr_programs::in_examples::*;
/// # use fosibegan_core::plain_std::vec;
/// # ended(|| {
/// let pool = AddressSet::from_networks(vec![in Global; "192.0.2.0/24".parse::<Ipv4Network>()?]?);
/// let used = AddressSet::from_networks(vec![in Global; "192.0.2.0/25".parse()?]?);
/// let mut blocks = free_blocks(&pool, &used, 26);
/// assert_eq!(blocks.next(), Some("192.0.2.128/26".parse()?));
/// # Ok(())
/// # });
/// ```
pub fn free_blocks<'a, N: AddressSpace>(
    pool: &'a AddressSet<N>,
    used: &'a AddressSet<N>,
    prefix: u8,
) -> FreeBlocks<'a, N> {
    let blocks = pool.difference(used);
    FreeBlocks {
        pieces: None,
        blocks,
        prefix,
    }
}

impl<'a, N: AddressSpace> Iterator for FreeBlocks<'a, N> {
    type Item = N;

    fn next(&mut self) -> Option<N> {
        if let Some(pieces) = &mut self.pieces {
            if let Some(block) = pieces.next() {
                return Some(block);
            }
        }
        let mut pieces = next_pieces(&mut self.blocks, self.prefix)?;
        let block = pieces.next();
        self.pieces = Some(pieces);
        block
    }
}

// The pieces of this prefix length of the next block that has any.
fn next_pieces<'a, N: AddressSpace>(
    blocks: &mut Difference<'a, N>,
    prefix: u8,
) -> Option<SubnetIterator<N>> {
    while let Some(block) = blocks.next() {
        if let Some(pieces) = subnets(block, prefix) {
            return Some(pieces);
        }
    }
    None
}
