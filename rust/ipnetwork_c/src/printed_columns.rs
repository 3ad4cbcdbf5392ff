// Written by scripts/plain out of crates/ipnetwork_c/src/printed_columns.rt

//! Prints columns of networks and addresses in one call, in Arrow's layout: the bytes of all texts,
//! one after the other, and the offsets at which each text begins and the last one ends.

use crate::address::AddressInC;
use crate::fault::{NO_FAMILY, OK, SHORT_BUFFER};
use crate::structs::{IpInC, V4};
use crate::writing::to_usize;
use fosibegan_core::plain_std::arrayvec::ArrayString;
use fosibegan_core::ipnetwork::NETWORK_TEXT_CAPACITY;

/// A row that can be printed.
pub(crate) trait PrintsRow {
    /// Returns the fault by which the row is refused, or 0.
    fn row_fault(&self) -> u32;

    /// Returns the text of what the row represents.
    fn row_text(&self) -> ArrayString<NETWORK_TEXT_CAPACITY>;
}

impl PrintsRow for IpInC {
    fn row_fault(&self) -> u32 {
        match self.network() {
            Ok(_) => OK,
            Err(fault) => fault,
        }
    }

    fn row_text(&self) -> ArrayString<NETWORK_TEXT_CAPACITY> {
        if self.family == V4 {
            return self.v4.row_text();
        }
        self.v6.row_text()
    }
}

impl PrintsRow for AddressInC {
    fn row_fault(&self) -> u32 {
        let Some(_) = self.address() else {
            return NO_FAMILY;
        };
        OK
    }

    fn row_text(&self) -> ArrayString<NETWORK_TEXT_CAPACITY> {
        let Some(address) = self.address() else {
            unreachable!()
        };
        let mut text = ArrayString::new();
        text.push_text(&address.canonical());
        text
    }
}

// Returns the fault of the first row that is refused, or 0 if none is.
fn first_fault<R: PrintsRow>(rows: &[R]) -> u32 {
    for row in 0..rows.len() {
        let fault = rows[row].row_fault();
        if fault != OK {
            return fault;
        }
    }
    OK
}

/// Prints each row into `texts`, after the row before it, and writes the offsets.
pub(crate) fn print_rows<R: PrintsRow>(
    rows: &[R],
    texts: &mut [u8],
    offsets: &mut [u32],
    length: &mut usize,
) -> u32 {
    let fault = first_fault(rows);
    if fault != OK {
        return fault;
    }
    let whole = texts_length(rows);
    *length = to_usize(whole);
    if whole > texts.len() as u128 || whole > i32::MAX as u128 || offsets.len() <= rows.len() {
        return SHORT_BUFFER;
    }
    put_texts(rows, texts, offsets);
    OK
}

// Returns the total length of the texts in bytes.
fn texts_length<R: PrintsRow>(rows: &[R]) -> u128 {
    let mut whole = 0;
    for row in 0..rows.len() {
        whole += rows[row].row_text().len() as u128;
    }
    whole
}

// Puts the texts at the front of a buffer that has room for them, and writes their offsets.
fn put_texts<R: PrintsRow>(rows: &[R], texts: &mut [u8], offsets: &mut [u32]) {
    let mut end = 0;
    offsets[0] = 0;
    for row in 0..rows.len() {
        end = put_at(rows[row].row_text().as_bytes(), texts, end);
        offsets[row + 1] = end as u32;
    }
}

// Puts a text into a buffer from an index on, and returns the index after it.
fn put_at(text: &[u8], texts: &mut [u8], at: usize) -> usize {
    let end = at + text.len();
    texts[at..end].copy_from_slice(text);
    end
}
