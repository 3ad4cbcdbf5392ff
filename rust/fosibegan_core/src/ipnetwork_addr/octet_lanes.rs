// Written by scripts/plain out of crates/ipnetwork_addr/src/octet_lanes.rt

//! Reads the four octets of an IPv4 text at once, in the lanes of a vector.

use crate::ipnetwork_addr::octet_tables::{
    joined_positions, least_of_row, length_of_row, likely_row, positions_of_row,
};
use crate::plain_std::simd::prelude::*;

/// Returns the four octets of the IPv4 address that a text names. `None` means that the text must
/// be read from left to right instead.
///
/// There is no branch on the number of digits of an octet: it would be mispredicted too often.
#[inline(always)]
pub(crate) fn read_at_once(text: &[u8]) -> Option<[u8; 4]> {
    let count = text.len();
    if count < 8 || count > 15 {
        return None;
    }
    let bytes = joined(text);
    let row = likely_row(dots(bytes) | 1 << count);
    if length_of_row(row) != count {
        return None;
    }
    octets_of_row(bytes, row)
}

/// Returns the bytes of a text, followed by other bytes.
#[inline(always)]
fn joined(text: &[u8]) -> u8x16 {
    let count = text.len();
    let front = u8x8::from_slice(text);
    let back = u8x8::from_slice(&text[count - 8..]);
    let both = front.shuffle::<16>(back, [0, 1, 2, 3, 4, 5, 6, 7, 8, 9, 10, 11, 12, 13, 14, 15]);
    both.swizzle_dyn(u8x16::from_array(*joined_positions(count)))
}

/// Returns the positions of the dots as bits.
#[inline(always)]
fn dots(bytes: u8x16) -> u64 {
    bytes.simd_eq(u8x16::splat(b'.')).to_bitmask()
}

/// Returns the octets of a text that has the row's number of digits in each octet.
#[inline(always)]
fn octets_of_row(bytes: u8x16, row: usize) -> Option<[u8; 4]> {
    let digits = digits_of_row(bytes, row);
    if !are_at_least(digits, u8x16::from_array(*least_of_row(row))) {
        return None;
    }
    if !are_at_least(u8x16::from_array(MOST), digits) {
        return None;
    }
    let octets = digits.dot4(u8x16::from_array(WEIGHTS));
    if octets.simd_gt(u32x4::splat(255)).to_bitmask() != 0 {
        return None;
    }
    Some(octets.cast::<u8>().to_array())
}

/// Returns how far above `0` the digits of the four octets and the byte after each octet are, in
/// the row's lanes.
#[inline(always)]
fn digits_of_row(bytes: u8x16, row: usize) -> u8x16 {
    let values = bytes - u8x16::splat(b'0');
    values.swizzle_dyn(u8x16::from_array(*positions_of_row(row)))
}

/// Returns whether each lane is at least that of `least`.
#[inline(always)]
fn are_at_least(lanes: u8x16, least: u8x16) -> bool {
    lanes.simd_lt(least).to_bitmask() == 0
}

/// The factors of the digits of an octet.
const WEIGHTS: [u8; 16] = [100, 10, 1, 0, 100, 10, 1, 0, 100, 10, 1, 0, 100, 10, 1, 0];

/// The greatest digit, and how far a dot is above `0`.
const MOST: [u8; 16] = [9, 9, 9, 254, 9, 9, 9, 254, 9, 9, 9, 254, 9, 9, 9, 0];
