// Written by scripts/plain out of crates/ipnetwork_index/src/answers.rt

//! What a look-up finds in each range.

use crate::plain_std::vec::Vec;
use crate::ipnetwork_index::indexed_network::IndexedNetwork;
use crate::ipnetwork_index::sweep::answers_by_sweep;
use crate::ipnetwork_table::PrefixTable;
use crate::plain_std::alloc::{AllocError, Global};

// Takes the place of a prefix length if no block holds the addresses of the range.
pub(crate) const NO_BLOCK: u8 = 255;

/// What a look-up finds in each range, without the address of the block, which is computed from the
/// address that is looked up. Empty if the table is empty.
#[derive(Clone)]
pub(crate) struct Answers<V: Copy> {
    // The prefix length of the block that holds the addresses of each range.
    pub(crate) prefixes: Vec<u8>,
    // The value of that block, or any value if there is no block.
    pub(crate) values: Vec<V>,
}

impl<V: Copy> Answers<V> {
    /// The answer for this address, which lies in the range at this place.
    pub(crate) fn of<N: IndexedNetwork>(&self, place: usize, addr: N::Addr) -> Option<(N, V)> {
        if place >= self.values.len() {
            return None;
        }
        let (prefix, value) = self.read(place);
        let block = N::block_at(addr, prefix.min(N::WIDTH));
        if prefix == NO_BLOCK {
            return None;
        }
        Some((block, value))
    }

    // The prefix length and the value at this place. Not inlined, so that the value is read before
    // it is known whether there is a block: otherwise a branch would depend on that, unpredictable
    // for random addresses.
    #[inline(never)]
    fn read(&self, place: usize) -> (u8, V) {
        (self.prefixes[place], self.values[place])
    }
}

/// What a table with these entries finds for the last address of each range.
pub(crate) fn answers_of<N: IndexedNetwork, V: Copy>(
    alloc: Global,
    entries: &[(N, V)],
    lasts: &[N::Addr],
) -> Result<Answers<V>, AllocError> {
    if entries.is_empty() {
        return Ok(Answers {
            prefixes: Vec::new(alloc),
            values: Vec::new(alloc),
        });
    }
    answers_by_sweep(alloc, entries, lasts)
}

/// The entries of the table, in order.
pub(crate) fn entries_of<N: IndexedNetwork, V: Copy>(
    alloc: Global,
    table: &PrefixTable<N, V>,
) -> Result<Vec<(N, V)>, AllocError> {
    let mut entries = Vec::with_capacity(alloc, table.len())?;
    let mut left = table.iter();
    'listing: while let Some(entry) = left.next() {
        entries.push(entry)?;
    }
    Ok(entries)
}
