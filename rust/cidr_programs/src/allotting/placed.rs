// Written by scripts/plain out of crates/allotting/src/placed.rt

//! Places for blocks of several lengths, none of which overlap.

use fosibegan_core::plain_std::vec::Vec;
use crate::allotting::free::{FreeBlocks, free_blocks};
use fosibegan_core::ipnetwork_blocks::AddressSpace;
use fosibegan_core::ipnetwork_sets::AddressSet;
use fosibegan_core::plain_std::alloc::{AllocError, Global};

/// The places of blocks of these prefix lengths in the pool, all at once, in the order of the
/// lengths. No two overlap, and none has an address that is used.
///
/// Blocks of shorter prefixes are placed first, and of one length those that come earlier in the
/// list. Each is the first that is free, as of [`free_blocks`](crate::allotting::free_blocks), of what those
/// before it leave; `None` if they leave none, as for a prefix length above `WIDTH`.
///
/// Goes over both sets for each different length of the list, and not for each place.
/// `AllocError`: out of memory.
///
/// ```
/// # use cidr_programs::in_examples::*;
/// # use fosibegan_core::plain_std::vec;
/// # ended(|| {
/// let pool = AddressSet::from_networks(vec![in Global; "10.0.0.0/24".parse::<Ipv4Network>()?]?);
/// let used = AddressSet::from_networks(vec![in Global; "10.0.0.0/26".parse()?]?);
/// let places = places(Global, pool, &used, &[27, 25])?;
/// let wanted = [Some("10.0.0.64/27".parse()?), Some("10.0.0.128/25".parse()?)];
/// assert_eq!(places.as_slice(), wanted.as_slice());
/// # Ok(())
/// # });
/// ```
pub fn places<N: AddressSpace>(
    alloc: Global,
    mut pool: AddressSet<N>,
    used: &AddressSet<N>,
    lengths: &[u8],
) -> Result<Vec<Option<N>>, AllocError> {
    let mut places = empty_places(alloc, lengths.len())?;
    let mut prefix = 0u16;
    while prefix < 256 {
        place_length(
            alloc,
            &mut pool,
            used,
            lengths,
            prefix as u8,
            places.as_mut_slice(),
        )?;
        prefix += 1;
    }
    Ok(places)
}

// This many places without a block.
fn empty_places<N: AddressSpace>(alloc: Global, count: usize) -> Result<Vec<Option<N>>, AllocError> {
    let mut places = Vec::new(alloc);
    while places.len() < count {
        places.push(None)?;
    }
    Ok(places)
}

// Takes the places of blocks of this prefix length from the pool.
fn place_length<N: AddressSpace>(
    alloc: Global,
    pool: &mut AddressSet<N>,
    used: &AddressSet<N>,
    lengths: &[u8],
    prefix: u8,
    places: &mut [Option<N>],
) -> Result<(), AllocError> {
    let taken = fill_places(alloc, pool, used, lengths, prefix, places)?;
    remove_all(alloc, pool, taken)?;
    Ok(())
}

// Fills the places of blocks of this prefix length, and returns these blocks.
fn fill_places<N: AddressSpace>(
    alloc: Global,
    pool: &AddressSet<N>,
    used: &AddressSet<N>,
    lengths: &[u8],
    prefix: u8,
    places: &mut [Option<N>],
) -> Result<Vec<N>, AllocError> {
    let mut blocks = free_blocks(pool, used, prefix);
    let mut taken = Vec::new(alloc);
    let mut at = 0;
    while at < lengths.len() {
        fill_place(&mut blocks, lengths, prefix, places, &mut taken, at)?;
        at += 1;
    }
    Ok(taken)
}

// Fills the place at this index with the next of the free blocks of this prefix length, if its
// block is to have this length, and adds it to those that were taken.
fn fill_place<N: AddressSpace>(
    blocks: &mut FreeBlocks<'_, N>,
    lengths: &[u8],
    prefix: u8,
    places: &mut [Option<N>],
    taken: &mut Vec<N>,
    at: usize,
) -> Result<(), AllocError> {
    if lengths[at] != prefix {
        return Ok(());
    }
    let Some(block) = blocks.next() else {
        places[at] = None;
        return Ok(());
    };
    places[at] = Some(block);
    taken.push(block)?;
    Ok(())
}

// Removes these blocks from the pool.
fn remove_all<N: AddressSpace>(
    alloc: Global,
    pool: &mut AddressSet<N>,
    taken: Vec<N>,
) -> Result<(), AllocError> {
    if taken.is_empty() {
        return Ok(());
    }
    let taken = AddressSet::from_networks(taken);
    let left = pool.difference(&taken).into_set(Vec::new(alloc))?;
    *pool = left;
    Ok(())
}
