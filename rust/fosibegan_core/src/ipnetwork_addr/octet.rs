// Written by scripts/plain out of crates/ipnetwork_addr/src/octet.rt

//! Reads the octets of an IPv4 text from left to right.

use crate::ipnetwork_addr::decimal_value::{
    decimal_value, factor_before, first_value, is_no_dot, value_unless_dot,
};
use crate::ipnetwork_addr::octet_lanes::read_at_once;

/// The greatest octet.
const OCTET_MAX: u32 = 255;

/// Returns the four octets of the IPv4 address that a text names.
pub(crate) fn read_octets(text: &[u8]) -> Option<[u8; 4]> {
    match read_at_once(text) {
        Some(octets) => Some(octets),
        None => read_from_left(text),
    }
}

/// Returns the same as `read_octets`, reading one octet at a time.
#[inline(never)]
fn read_from_left(text: &[u8]) -> Option<[u8; 4]> {
    let (first, second_at) = read_octet_and_dot(text, 0)?;
    let (second, third_at) = read_octet_and_dot(text, second_at)?;
    let (third, fourth_at) = read_octet_and_dot(text, third_at)?;
    let fourth = read_octet(&text[fourth_at..])?;
    Some([first, second, third, fourth])
}

/// Returns the octet before the first dot from `at` on, and the position after that dot.
#[inline(always)]
fn read_octet_and_dot(text: &[u8], at: usize) -> Option<(u8, usize)> {
    if text.len() - at < 4 || text[at + 1] == b'.' {
        return read_by_positions(text, at);
    }
    // There is no branch on whether there are two or three digits: it would be mispredicted too
    // often.
    let last = text[at + 2];
    let end = at + 2 + is_no_dot(last) as usize;
    if text[end] != b'.' {
        return None;
    }
    let octet = octet_before_dot(text[at], text[at + 1], last)?;
    Some((octet, end + 1))
}

/// Returns the same as `read_octet_and_dot`, trying one position after another.
#[inline(always)]
fn read_by_positions(text: &[u8], at: usize) -> Option<(u8, usize)> {
    let rest = &text[at..];
    let end = octet_end(rest)?;
    let octet = read_octet(&rest[..end])?;
    Some((octet, at + end + 1))
}

/// Returns the position of the first dot after one, two or three bytes.
#[inline(always)]
fn octet_end(text: &[u8]) -> Option<usize> {
    if has_dot(text, 1) {
        return Some(1);
    }
    if has_dot(text, 2) {
        return Some(2);
    }
    if has_dot(text, 3) {
        return Some(3);
    }
    None
}

/// Returns whether there is a dot at this position.
#[inline(always)]
fn has_dot(text: &[u8], at: usize) -> bool {
    at < text.len() && text[at] == b'.'
}

/// Returns the octet, if the whole text is one.
#[inline(always)]
fn read_octet(text: &[u8]) -> Option<u8> {
    let count = text.len();
    if count == 1 {
        return octet_of_one(text[0]);
    }
    if count < 2 || count > 3 {
        return None;
    }
    octet_of_several(text[0], text[1], text[count - 1], (count - 2) as u32)
}

/// Returns the octet with this one digit.
#[inline(always)]
fn octet_of_one(a: u8) -> Option<u8> {
    let value = decimal_value(a);
    if value > 9 {
        return None;
    }
    Some(value as u8)
}

/// Returns the octet with the digits `a` and `b`, and also `c` if `more` is 1. The first digit must
/// not be zero.
#[inline(always)]
fn octet_of_several(a: u8, b: u8, c: u8, more: u32) -> Option<u8> {
    let two = first_value(a) + decimal_value(b);
    let value = two + (two * 9 + decimal_value(c)) * more;
    if value > OCTET_MAX {
        return None;
    }
    Some(value as u8)
}

/// Returns the octet with the digits `a`, `b` and `c`, or `a` and `b` if `c` is a dot. The first
/// digit must not be zero.
#[inline(always)]
fn octet_before_dot(a: u8, b: u8, c: u8) -> Option<u8> {
    let value = (first_value(a) + decimal_value(b)) * factor_before(c) + value_unless_dot(c);
    if value > OCTET_MAX {
        return None;
    }
    Some(value as u8)
}
