// Written by scripts/plain out of crates/ipnetwork_table/src/counts.rt

//! The number of blocks with each prefix length.

/// Counts one more block with this prefix length.
pub(crate) fn count_one_more(counts: &mut [usize; 256], prefix: u8) {
    counts[prefix as usize] += 1;
}

/// Counts one block fewer with this prefix length.
pub(crate) fn count_one_less(counts: &mut [usize; 256], prefix: u8) {
    counts[prefix as usize] -= 1;
}
