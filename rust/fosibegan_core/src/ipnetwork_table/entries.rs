// Written by scripts/plain out of crates/ipnetwork_table/src/entries.rt

//! The entries of a table, in order.

use crate::plain_std::KitClone;
use crate::ipnetwork_family::CidrNetwork;
use crate::plain_std::alloc::AllocError;
use crate::plain_std::collections::btree_map::Iter;

/// An iterator over the blocks of a table, each with its value, in the order of networks.
///
/// ```
/// # use fosibegan_core::in_examples::*;
/// # ended(|| {
/// let mut table = PrefixTable::new(Global);
/// table.insert("10.1.0.0/16".parse::<Ipv4Network>()?, 3)?;
/// table.insert("10.0.0.0/8".parse()?, 2)?;
/// let mut entries = table.iter();
/// assert_eq!(entries.next(), Some(("10.0.0.0/8".parse()?, 2)));
/// assert_eq!(entries.next(), Some(("10.1.0.0/16".parse()?, 3)));
/// # Ok(())
/// # });
/// ```
pub struct Entries<'a, N: CidrNetwork, V: Copy> {
    left: Iter<'a, N, V>,
}

impl<'a, N: CidrNetwork, V: Copy> Entries<'a, N, V> {
    pub(crate) fn new(left: Iter<'a, N, V>) -> Self {
        Entries { left }
    }
}

impl<'a, N: CidrNetwork, V: Copy> Iterator for Entries<'a, N, V> {
    type Item = (N, V);

    fn next(&mut self) -> Option<(N, V)> {
        let (network, value) = self.left.next()?;
        Some((*network, *value))
    }
}

impl<'a, N: CidrNetwork, V: Copy> Clone for Entries<'a, N, V> {
    fn clone(&self) -> Self {
        crate::plain_std::made(|| -> Result<Self, AllocError> {
        Ok(Entries {
            left: self.left.kit_clone()?,
        })
    })
    }
}
