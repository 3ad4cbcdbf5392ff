// Written by scripts/plain out of crates/ipnetwork_addr/src/colons_at_once.rt

//! Reads an IPv6 text after finding all its colons and the values of all its digits.

use crate::ipnetwork_addr::colons::shift;
use crate::ipnetwork_addr::digit_lanes::{MOST, put_values};
use crate::ipnetwork_addr::group::append;

/// Returns the number of the address that a text names. `None` means that the text must be read
/// from left to right instead.
///
/// There is no branch on the number of digits of a group: it would be mispredicted too often.
#[inline(always)]
pub(crate) fn read_at_once(text: &[u8]) -> Option<u128> {
    if text.len() < 16 || text.len() > MOST {
        return None;
    }
    let mut values = [0; 48];
    let ends = put_values(text, &mut values) | 1 << text.len();
    let (count, left, end) = read_left(text, &values, ends)?;
    let Some(behind_gap) = end else {
        return if count == 8 { Some(left) } else { None };
    };
    if count == 8 {
        return None;
    }
    let right = read_right(text, &values, ends, behind_gap, 7 - count)?;
    Some(shift(left, count) + right)
}

/// Reads the groups up to the end of the text or a `::`. Returns how many there are, the number
/// whose digits in base 2^16 they are, and the position after the `::`, if there is one.
#[inline(always)]
fn read_left(text: &[u8], values: &[u8; 48], ends: u64) -> Option<(usize, u128, Option<usize>)> {
    match text {
        [b':', b':', ..] => Some((0, 0, Some(2))),
        _ => read_part(text, values, ends, 0, 8),
    }
}

/// Returns the number of the groups that make up the text from `from` on, at most `room` of them.
#[inline(always)]
fn read_right(text: &[u8], values: &[u8; 48], ends: u64, from: usize, room: usize) -> Option<u128> {
    if text.len() <= from {
        return Some(0);
    }
    let ends_behind = ends >> (from % 64) << (from % 64);
    let (_, number, end) = read_part(text, values, ends_behind, from, room)?;
    match end {
        None => Some(number),
        Some(_) => None,
    }
}

/// Reads groups joined by colons from `from` on, up to the end of the text or a `::`, at most
/// `room` of them. Returns how many there are, the number whose digits in base 2^16 they are, and
/// the position after the `::`, if there is one. The lowest bit of `ends` is the likely end of the
/// first group.
#[inline(always)]
fn read_part(
    text: &[u8],
    values: &[u8; 48],
    ends: u64,
    from: usize,
    room: usize,
) -> Option<(usize, u128, Option<usize>)> {
    let mut ends_left = ends;
    let mut at = from;
    let mut number = 0u128;
    for count in 0..room {
        let end = ends_left.trailing_zeros() as usize;
        let group = read_group(text, values, at, end)?;
        number = append(number, group);
        if end == text.len() {
            return Some((count + 1, number, None));
        }
        at = end + 1;
        if at < text.len() && text[at] == b':' {
            return Some((count + 1, number, Some(at + 1)));
        }
        ends_left &= ends_left.wrapping_sub(1);
    }
    None
}

/// Returns the group from `at` to `end`, where there must be a colon or the end of the text.
#[inline(always)]
fn read_group(text: &[u8], values: &[u8; 48], at: usize, end: usize) -> Option<u16> {
    if text.len() < end || end <= at || end - at > 4 {
        return None;
    }
    if end < text.len() && text[end] != b':' {
        return None;
    }
    let before = [
        values[end],
        values[end + 1],
        values[end + 2],
        values[end + 3],
    ];
    let digits = u32::from_be_bytes(before) & u32::MAX >> (32 - 8 * (end - at));
    if digits & 0xf0f0_f0f0 != 0 {
        return None;
    }
    Some(group_of(digits))
}

/// Returns the group with these four digits, one in each byte of a number.
#[inline(always)]
fn group_of(digits: u32) -> u16 {
    let pairs = digits + digits / 16;
    (pairs / 0x1_0000 % 256 * 256 + pairs % 256) as u16
}
