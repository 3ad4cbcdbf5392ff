// Written by scripts/plain out of crates/ipnetwork_addr/src/first_mark.rt

//! The first dot or colon of a text, which shows which family the text can belong to.

use crate::plain_std::simd::prelude::*;

/// Returns whether the first dot or colon of a text is a colon, as in every IPv6 text. In an IPv4
/// text, a dot comes first, so that a text only has to be read as one family.
///
/// ```
/// # use fosibegan_core::in_examples::*;
/// assert!(first_mark::has_colon_first(b"::ffff:192.0.2.1"));
/// assert!(!first_mark::has_colon_first(b"192.0.2.1"));
/// ```
pub fn has_colon_first(text: &[u8]) -> bool {
    if text.len() < 8 {
        return has_colon_first_by_bytes(text);
    }
    // There is no branch on the position of the dot or colon: it would be mispredicted too often.
    let bytes = u8x8::from_slice(text);
    let colon = lanes_before(bytes, b':');
    let dot = lanes_before(bytes, b'.');
    if colon < dot {
        return true;
    }
    if dot < colon {
        return false;
    }
    has_colon_first_by_bytes(text)
}

/// Returns the number of lanes before the first one with this byte, or 8 if there is none.
#[inline(always)]
fn lanes_before(bytes: u8x8, byte: u8) -> u32 {
    let lanes = bytes.simd_eq(u8x8::splat(byte)).to_bitmask();
    if lanes == 0 {
        8
    } else {
        lanes.trailing_zeros()
    }
}

/// Returns the same as `has_colon_first`, byte by byte.
fn has_colon_first_by_bytes(text: &[u8]) -> bool {
    for byte in text {
        if *byte == b':' {
            return true;
        }
        if *byte == b'.' {
            return false;
        }
    }
    false
}
