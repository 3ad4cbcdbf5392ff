// Written by scripts/plain out of crates/ipnetwork_addr/src/colons.rt

//! Reads an IPv6 text: the groups before a `::` and those after it.

use crate::ipnetwork_addr::colons_at_once::read_at_once;
use crate::ipnetwork_addr::group::read_part;
use crate::ipnetwork_addr::segments::halves_of_number;

/// Returns the halves of the address that a text names, high half first.
///
/// Inlined, so that short texts do not pay for what only long ones need.
#[inline(always)]
pub(crate) fn read_address(text: &[u8]) -> Option<(u64, u64)> {
    if text.len() < 16 {
        return read_one_by_one(text);
    }
    match read_halves_at_once(text) {
        Some(halves) => Some(halves),
        None => read_one_by_one(text),
    }
}

/// Returns the same as `read_address` if it can, after locating all colons. `None` means that the
/// text may still name an address.
#[inline(never)]
fn read_halves_at_once(text: &[u8]) -> Option<(u64, u64)> {
    let number = read_at_once(text)?;
    Some(halves_of_number(number))
}

/// Returns the same as `read_address`, reading byte by byte.
#[inline(never)]
fn read_one_by_one(text: &[u8]) -> Option<(u64, u64)> {
    let number = read_from_left(text)?;
    Some(halves_of_number(number))
}

/// Returns the number of the address that a text names, reading byte by byte.
#[inline(always)]
fn read_from_left(text: &[u8]) -> Option<u128> {
    let (count, left, end) = read_left(text)?;
    let Some(behind_gap) = end else {
        return if count == 8 { Some(left) } else { None };
    };
    if count == 8 {
        return None;
    }
    let right = read_right(behind_gap, 7 - count)?;
    Some(shift(left, count) + right)
}

/// Reads the groups up to the end of the text or a `::`. Returns how many there are, the number
/// whose digits in base 2^16 they are, and what follows the `::`, if there is one.
fn read_left(text: &[u8]) -> Option<(usize, u128, Option<&[u8]>)> {
    match text {
        [b':', b':', behind_gap @ ..] => Some((0, 0, Some(behind_gap))),
        _ => read_part(text, 8),
    }
}

/// Returns the number of the groups that make up a text, at most `room` of them.
fn read_right(text: &[u8], room: usize) -> Option<u128> {
    if text.is_empty() {
        return Some(0);
    }
    let (_, number, end) = read_part(text, room)?;
    match end {
        None => Some(number),
        Some(_) => None,
    }
}

/// Returns the number of `count` groups, moved to the front of eight.
pub(crate) fn shift(number: u128, count: usize) -> u128 {
    number << (112 - 16 * count) << 16
}
