// Written by scripts/plain out of crates/line_addresses/src/named.rt

//! The word and the `:` before an address.

use crate::line_addresses::byte_kind::{is_address_byte, is_run_byte};
use fosibegan_core::byte_search::find_from;

/// Returns the index after the word and the `:` that begin a text, or its length if none do.
#[inline(always)]
pub(crate) fn behind_word(text: &[u8]) -> usize {
    let Some(colon) = find_from(text, 0, b':') else {
        return text.len();
    };
    if is_word(&text[..colon]) {
        colon + 1
    } else {
        text.len()
    }
}

// Returns whether a text consists of run bytes, one of which occurs in no address text.
fn is_word(text: &[u8]) -> bool {
    are_run_bytes(text) && !are_address_bytes(text)
}

// Returns whether each byte is a run byte.
fn are_run_bytes(text: &[u8]) -> bool {
    text.iter().all(|byte| is_run_byte(*byte))
}

// Returns whether each byte occurs in address texts.
fn are_address_bytes(text: &[u8]) -> bool {
    text.iter().all(|byte| is_address_byte(*byte))
}
