// Written by scripts/plain out of crates/allotting/src/usage.rt

//! How many addresses of each block of a pool are used.

use fosibegan_core::plain_std::vec::Vec;
use fosibegan_core::ipnetwork_blocks::AddressSpace;
use fosibegan_core::ipnetwork_sets::{AddressCount, AddressSet, Intersection};
use fosibegan_core::plain_std::alloc::{AllocError, Global};

/// The blocks of the pool, in ascending order, each with the number of its addresses that are used.
/// Goes over both sets once. `AllocError`: out of memory.
///
/// ```
/// # use cidr_programs::in_examples::*;
/// # use fosibegan_core::plain_std::vec;
/// # ended(|| {
/// let pool = AddressSet::from_networks(vec![in Global; "10.0.0.0/24".parse::<Ipv4Network>()?]?);
/// let used = AddressSet::from_networks(vec![in Global; "10.0.0.128/25".parse()?]?);
/// let usage = used_counts(Global, &pool, &used)?;
/// assert_eq!(usage[0], ("10.0.0.0/24".parse()?, AddressCount::from(128)));
/// # Ok(())
/// # });
/// ```
pub fn used_counts<N: AddressSpace>(
    alloc: Global,
    pool: &AddressSet<N>,
    used: &AddressSet<N>,
) -> Result<Vec<(N, AddressCount)>, AllocError> {
    let mut usage = Vec::new(alloc);
    let mut pieces = pool.intersection(used);
    let mut next = pieces.next();
    let blocks = pool.blocks();
    let mut at = 0;
    while at < blocks.len() {
        let block = blocks[at];
        let (count, left) = count_within(block, next, &mut pieces);
        usage.push((block, count))?;
        next = left;
        at += 1;
    }
    Ok(usage)
}

// The number of addresses of the pieces up to the first that is not within the block, and that one.
fn count_within<N: AddressSpace>(
    block: N,
    next: Option<N>,
    pieces: &mut Intersection<'_, N>,
) -> (AddressCount, Option<N>) {
    let mut count = AddressCount::ZERO;
    let mut left = next;
    while let Some(piece) = left {
        if !piece.is_subnet_of(block) {
            return (count, Some(piece));
        }
        count = count.add_block(piece);
        let after = pieces.next();
        left = after;
    }
    (count, None)
}
