// Written by scripts/plain out of crates/ipnetwork_addr/src/digit_lanes.rt

//! The values of the hex digits of a text, as the lanes of vectors.

use crate::plain_std::simd::prelude::*;

/// The position of the value of a text's first byte. A group's values are read four at a time, even
/// if fewer bytes precede its end.
const FIRST: usize = 4;

/// The greatest length of a text whose values fit.
pub(crate) const MOST: usize = 44;

/// The value of a byte that is not a hex digit; any number above 15 would do.
const NO_DIGIT: u8 = 255;

/// Stores the value of each byte of a text as a hex digit at its position. Returns the positions of
/// the colons as bits.
///
/// The last vector overlaps the previous one, unless the text has 32 bytes.
#[inline(always)]
pub(crate) fn put_values(text: &[u8], values: &mut [u8; 48]) -> u64 {
    let last = text.len() - 16;
    let mut colons = put_lanes(text, 0, values);
    if last > 16 {
        colons |= put_lanes(text, 16, values) << 16;
    }
    colons | put_lanes(text, last, values) << last
}

/// Stores the values of the sixteen bytes from `at` on. Returns the colons among them as bits.
#[inline(always)]
fn put_lanes(text: &[u8], at: usize, values: &mut [u8; 48]) -> u64 {
    let bytes = u8x16::from_slice(&text[at..]);
    store(values, at + FIRST, values_of(bytes));
    colons_of(bytes)
}

/// Stores sixteen lanes from `at` on.
#[inline(always)]
fn store(values: &mut [u8; 48], at: usize, lanes: u8x16) {
    lanes.copy_to_slice(&mut values[at..]);
}

/// Returns the value of each byte as a hex digit of either case, or more than 15 if it is none.
#[inline(always)]
fn values_of(bytes: u8x16) -> u8x16 {
    let decimals = bytes - u8x16::splat(b'0');
    let letters = (bytes | u8x16::splat(0x20)) - u8x16::splat(b'a');
    let others = letters
        .simd_lt(u8x16::splat(6))
        .select(letters + u8x16::splat(10), u8x16::splat(NO_DIGIT));
    decimals.simd_lt(u8x16::splat(10)).select(decimals, others)
}

/// Returns the positions of the colons as bits.
#[inline(always)]
fn colons_of(bytes: u8x16) -> u64 {
    bytes.simd_eq(u8x16::splat(b':')).to_bitmask()
}
