// Written by scripts/plain out of crates/byte_search/src/lib.rt

//! Searches texts for a byte, several bytes at a time.
//!
//! Nothing here allocates.

use crate::plain_std::simd::prelude::*;

/// Returns the index of the first byte equal to `byte` at or after the index `from`, or `None` if
/// there is none. `from` must be at most the length of the text.
///
/// ```
/// # use fosibegan_core::in_examples::*;
/// let next_dot = find_from(b"10.0.0.0/8", 3, b'.');
/// assert_eq!(next_dot, Some(4));
/// ```
///
/// # Panics
///
/// Panics if the place is past the end of the text.
#[inline(always)]
pub fn find_from(text: &[u8], from: usize, byte: u8) -> Option<usize> {
    assert!(from <= text.len(), "find_from: the place is past the end of the text");
    if text.len() >= 16 {
        find_by::<16>(text, from, byte)
    } else if text.len() >= 8 {
        find_by::<8>(text, from, byte)
    } else {
        find_one_by_one(text, from, byte)
    }
}

/// Returns what `find_from` returns, for a byte that is likely to be far after `from`, such as a
/// line feed. Compares 32 bytes at once and then 64 at a time, so that few branches depend on its
/// position.
///
/// ```
/// # use fosibegan_core::in_examples::*;
/// let feed = find_far(b"10.0.0.0/8\n::/0", 3, b'\n');
/// assert_eq!(feed, Some(10));
/// ```
///
/// # Panics
///
/// Panics if the place is past the end of the text.
#[inline(always)]
pub fn find_far(text: &[u8], from: usize, byte: u8) -> Option<usize> {
    assert!(from <= text.len(), "find_far: the place is past the end of the text");
    if text.len() - from < 32 {
        return find_from(text, from, byte);
    }
    if let Some(position) = find_within::<32>(text, from, byte) {
        return Some(position);
    }
    let mut at = from + 32;
    'searching: while text.len() - at >= 64 {
        if let Some(position) = find_within::<64>(text, at, byte) {
            return Some(position);
        }
        at += 64;
    }
    find_from(text, at, byte)
}

/// Returns the index of the first of the `N` bytes from `at` on that equals `byte`, or `None`.
#[inline(always)]
fn find_within<const N: usize>(text: &[u8], at: usize, byte: u8) -> Option<usize> {
    let lanes = marks_of::<N>(text, at, byte);
    if lanes == 0 {
        return None;
    }
    Some(at + lanes.trailing_zeros() as usize)
}

/// Returns what `find_from` returns, for a text of at least `N` bytes, in vectors of `N` bytes. The
/// last vector ends at the end of the text and may overlap the previous one.
#[inline(always)]
fn find_by<const N: usize>(text: &[u8], from: usize, byte: u8) -> Option<usize> {
    let last = text.len() - N;
    let mut at = from;
    while at <= last {
        let marks = marks_of::<N>(text, at, byte);
        if marks != 0 {
            return Some(at + marks.trailing_zeros() as usize);
        }
        at += N;
    }
    let marks = marks_of::<N>(text, last, byte) >> (at - last);
    if marks == 0 {
        return None;
    }
    Some(at + marks.trailing_zeros() as usize)
}

/// Returns a bit for each of the `N` bytes from `at` on, which is set if the byte has this value.
#[inline(always)]
fn marks_of<const N: usize>(text: &[u8], at: usize, byte: u8) -> u64 {
    let bytes = Simd::<u8, N>::from_slice(&text[at..]);
    bytes.simd_eq(Simd::splat(byte)).to_bitmask()
}

/// Returns what `find_from` returns, byte by byte.
fn find_one_by_one(text: &[u8], from: usize, byte: u8) -> Option<usize> {
    for at in from..text.len() {
        if text[at] == byte {
            return Some(at);
        }
    }
    None
}
