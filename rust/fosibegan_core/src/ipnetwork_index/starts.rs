// Written by scripts/plain out of crates/ipnetwork_index/src/starts.rt

//! Where the search for a number begins.

use crate::ipnetwork_index::key::Key;

/// The number of parts of an index with this many ranges, as a power of two: two to four for each
/// range, one to two from 2^14 ranges on, and at most 2^20.
///
/// ```
/// # use fosibegan_core::in_examples::*;
/// assert_eq!(part_bits(1000), 11);
/// ```
pub fn part_bits(ranges: usize) -> u32 {
    let bits = usize::BITS - ranges.leading_zeros();
    if bits < 15 {
        return bits + 1;
    }
    bits.min(20)
}

// `part_bits` for the index of a table, which is kept small if it has many ranges: from 2^16 ranges
// on, it has one part for one or two of them.
pub(crate) fn route_bits(ranges: usize) -> u32 {
    if ranges < 16_384 {
        part_bits(ranges)
    } else if ranges < 65_536 {
        part_bits(2 * ranges)
    } else {
        part_bits(ranges / 2)
    }
}

// The size of the parts, as a power of two, if ranges of 32-bit numbers are represented by low
// halves: on average, a part has fewer than eight ranges if there are fewer than 2^23, and at least
// two from 2^17 on.
pub(crate) fn low_shift(ranges: usize) -> u32 {
    let bits = usize::BITS - ranges.leading_zeros();
    35u32.saturating_sub(bits).max(12).min(16)
}

// The first number of 2^`bits` parts, and their size as a power of two. They extend from the first
// key to that of the last range but one, which skips the leading bits that all of these share; or,
// if that makes the parts much smaller, over the keys in the middle, without a 64th at either end.
// The contract leaves both open: other values would cost time but change no result.
pub(crate) fn span_of<K: Key>(keys: &[K], bits: u32) -> (K, u32) {
    let last = keys.len() - 4;
    let end = last.saturating_sub(1);
    let few = last / 64;
    let whole = keys[end].part_size(keys[0], bits);
    let middle = keys[end - few].part_size(keys[few], bits);
    if middle.saturating_add(2) <= whole {
        return (keys[few], middle);
    }
    (keys[0], whole)
}

/// Writes, for each part of the numbers from `base` on, the place where the search for a number of
/// the part may begin: how many of the keys are less than each of these numbers, or fewer if that
/// is 2^32 or more. Each part has 2^`shift` numbers; `shift` must be less than the number of bits
/// of a key. There are as many parts as elements of `starts`, at least one; the last part also has
/// the numbers after it, and the first one those before it.
pub(crate) fn write_starts<K: Key>(keys: &[K], base: K, shift: u32, starts: &mut [u32]) {
    let mut at = 0;
    for part in 0..starts.len() {
        at = start_of::<K>(keys, at, base, shift, part);
        starts[part] = at.min(u32::MAX as usize) as u32;
    }
}

// How many keys are less than each number of the part, given that those before `from` are.
fn start_of<K: Key>(keys: &[K], from: usize, base: K, shift: u32, part: usize) -> usize {
    let mut at = from;
    while at < keys.len() && keys[at].part_of(base, shift, usize::MAX) < part {
        at += 1;
    }
    at
}
