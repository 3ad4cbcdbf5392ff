// Written by scripts/plain out of crates/ipnetwork_addr/src/group.rt

//! Reads the groups of an IPv6 text, from left to right.

use crate::ipnetwork_addr::hex_value::hex_value;
use crate::ipnetwork_addr::octet::read_octets;

/// Reads groups joined by colons, up to the end of the text or a `::`, at most `room` of them.
/// Returns how many there are, the number whose digits in base 2^16 they are, and what follows the
/// `::`, if there is one.
#[inline(always)]
pub(crate) fn read_part(text: &[u8], room: usize) -> Option<(usize, u128, Option<&[u8]>)> {
    let mut rest = text;
    let mut number = 0u128;
    for count in 0..room {
        let (group, after) = read_group(rest)?;
        let Some(next) = after_byte(after, b':') else {
            if after.is_empty() {
                return Some((count + 1, append(number, group), None));
            }
            let Some(_) = after_byte(after, b'.') else {
                return None;
            };
            if count + 2 > room {
                return None;
            }
            let address = read_v4(rest)?;
            return Some((count + 2, append_v4(number, address), None));
        };
        number = append(number, group);
        if let Some(behind_gap) = after_byte(next, b':') {
            return Some((count + 1, number, Some(behind_gap)));
        }
        rest = next;
    }
    None
}

/// Returns the text after its first byte, if that is `byte`.
fn after_byte(text: &[u8], byte: u8) -> Option<&[u8]> {
    let [first, rest @ ..] = text else {
        return None;
    };
    if *first == byte { Some(rest) } else { None }
}

/// Returns the number with one more digit in base 2^16 at its end.
pub(crate) fn append(number: u128, group: u16) -> u128 {
    number * 0x1_0000 + u128::from(group)
}

/// Returns the number with two more digits in base 2^16 at its end.
fn append_v4(number: u128, address: u32) -> u128 {
    number * 0x1_0000_0000 + u128::from(address)
}

/// Returns the number of the IPv4 address that a text names.
fn read_v4(text: &[u8]) -> Option<u32> {
    match read_octets(text) {
        Some(octets) => Some(u32::from_be_bytes(octets)),
        None => None,
    }
}

/// Returns the group up to the first byte that is not a hex digit, and the text from there on.
fn read_group(text: &[u8]) -> Option<(u16, &[u8])> {
    let (first, after_first) = read_hex(text)?;
    let Some((second, after_second)) = read_hex(after_first) else {
        return Some((first as u16, after_first));
    };
    let two = first * 16 + second;
    let Some((third, after_third)) = read_hex(after_second) else {
        return Some((two as u16, after_second));
    };
    let three = two * 16 + third;
    let Some((fourth, after_fourth)) = read_hex(after_third) else {
        return Some((three as u16, after_third));
    };
    match read_hex(after_fourth) {
        None => Some(((three * 16 + fourth) as u16, after_fourth)),
        Some(_) => None,
    }
}

/// Returns the value of the first byte as a hex digit, and the text after it.
#[inline(always)]
fn read_hex(text: &[u8]) -> Option<(u32, &[u8])> {
    let [byte, rest @ ..] = text else {
        return None;
    };
    match hex_value(*byte) {
        Some(digit) => Some((digit, rest)),
        None => None,
    }
}
