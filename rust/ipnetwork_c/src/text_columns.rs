// Written by scripts/plain out of crates/ipnetwork_c/src/text_columns.rt

//! Reads columns of texts in one call, in Arrow's layout: the bytes of all texts, one after the
//! other, and the offsets at which each text begins and the last one ends.

use crate::address::{AddressInC, ipnetwork_address_read};
use crate::either::{ipnetwork_read, ipnetwork_read_with_cause};
use crate::fault::{NO_OFFSETS, OK, SHORT_BUFFER};
use crate::structs::{IpInC, IpWithCauseInC};

/// A row that a text can be read into.
pub(crate) trait ReadsRow {
    /// Reads a text, and returns the fault.
    fn read_row(&mut self, text: &[u8]) -> u32;
}

impl ReadsRow for IpInC {
    fn read_row(&mut self, text: &[u8]) -> u32 {
        ipnetwork_read(text, self)
    }
}

impl ReadsRow for IpWithCauseInC {
    fn read_row(&mut self, text: &[u8]) -> u32 {
        ipnetwork_read_with_cause(text, &mut self.held)
    }
}

impl ReadsRow for AddressInC {
    fn read_row(&mut self, text: &[u8]) -> u32 {
        ipnetwork_address_read(text, self)
    }
}

/// Returns whether no offset is past the end of the texts, and none is less than the one before.
fn are_offsets(texts: &[u8], offsets: &[u32]) -> bool {
    // No branch leaves the loop, so several offsets are compared at once.
    let mut last = 0;
    let mut falls = false;
    for offset in offsets {
        if *offset < last {
            falls = true;
        }
        last = *offset;
    }
    if falls {
        return false;
    }
    last as usize <= texts.len()
}

/// Reads each text into the row of the same number, and writes the fault of each.
pub(crate) fn read_rows<R>(texts: &[u8], offsets: &[u32], rows: &mut [R], faults: &mut [u8]) -> u32
where
    R: ReadsRow,
{
    if !are_offsets(texts, offsets) {
        return NO_OFFSETS;
    }
    let count = offsets.len().saturating_sub(1);
    if rows.len() < count || faults.len() < count {
        return SHORT_BUFFER;
    }
    for row in 0..count {
        let begin = offsets[row] as usize;
        let end = offsets[row + 1] as usize;
        let fault = rows[row].read_row(&texts[begin..end]);
        faults[row] = fault as u8;
    }
    OK
}
