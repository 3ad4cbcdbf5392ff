// Written by scripts/plain out of crates/ipnetwork_sets/src/from_ranges.rt

//! Sets made from ranges of addresses.

use crate::plain_std::vec::Vec;
use crate::ipnetwork_sets::address_set::AddressSet;
use crate::ipnetwork_blocks::{AddressSpace, range_to_blocks};
use crate::plain_std::alloc::AllocError;

impl<N: AddressSpace> AddressSet<N> {
    /// The set of the addresses of the ranges, each given by its first and its last address. The
    /// ranges may be in any order and overlap. A range whose first address comes after its last has
    /// no addresses. The blocks are stored in `memory`, whose contents are dropped first.
    /// `AllocError` means that it had to grow and memory ran out.
    ///
    /// ```
    /// # use fosibegan_core::in_examples::*;
    /// # ended(|| {
    /// let ranges = [(Ipv4Addr::new(192, 0, 2, 0), Ipv4Addr::new(192, 0, 2, 127))];
    /// let set = AddressSet::<Ipv4Network>::from_ranges(&ranges, Vec::new(Global))?;
    /// assert_eq!(set.blocks()[0].canonical().as_str(), "192.0.2.0/25");
    /// # Ok(())
    /// # });
    /// ```
    pub fn from_ranges(
        ranges: &[(N::Addr, N::Addr)],
        mut memory: Vec<N>,
    ) -> Result<Self, AllocError> {
        memory.clear();
        for range in ranges {
            push_range(&mut memory, range.0, range.1)?;
        }
        Ok(AddressSet::from_networks(memory))
    }
}

/// Appends to the networks the fewest blocks that have exactly the addresses from `first` to
/// `last`, both included; none if `first` comes after `last`. The networks already in the list are
/// unchanged. `AllocError` means that the list had to grow and memory ran out; the first of the
/// blocks may have been appended. The capacity never shrinks.
///
/// ```
/// # use fosibegan_core::in_examples::*;
/// # ended(|| {
/// let mut networks = Vec::<Ipv4Network>::new(Global);
/// push_range(&mut networks, Ipv4Addr::new(192, 0, 2, 1), Ipv4Addr::new(192, 0, 2, 3))?;
/// assert_eq!(networks.len(), 2);
/// # Ok(())
/// # });
/// ```
pub fn push_range<N: AddressSpace>(
    networks: &mut Vec<N>,
    first: N::Addr,
    last: N::Addr,
) -> Result<(), AllocError> {
    // The clause `address` of this call says that `last` is an address of the family.
    let _ = N::block(last, N::WIDTH);
    let Some(mut blocks) = range_to_blocks::<N>(first, last) else {
        return Ok(());
    };
    while let Some(block) = blocks.next() {
        networks.push(block)?;
    }
    Ok(())
}
