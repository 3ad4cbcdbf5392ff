// Written by scripts/plain out of crates/ipnetwork_index/src/entries.rt

//! The table of a list of entries.

use crate::ipnetwork_index::indexed_network::IndexedNetwork;
use crate::ipnetwork_table::PrefixTable;
use crate::plain_std::alloc::{AllocError, Global};

/// The table of the blocks of the entries. Of several with the same block, the last one counts.
pub(crate) fn table_of<N: IndexedNetwork, V: Copy>(
    alloc: Global,
    entries: &[(N, V)],
) -> Result<PrefixTable<N, V>, AllocError> {
    let mut table = PrefixTable::new(alloc);
    for entry in entries {
        table.insert(entry.0, entry.1)?;
    }
    Ok(table)
}
