// Written by scripts/plain out of crates/ipnetwork_family/src/parse.rt

//! The parts of a network text.

use crate::ipnetwork_family::CidrFault;
use crate::byte_search::find_from;

/// The parts of a text before and after its only `/`, or the whole text and `None` if there is no
/// `/`. Two or more `/` are refused with `CidrFault::Format`.
///
/// ```
/// # use fosibegan_core::in_examples::*;
/// assert_eq!(parse::cidr_parts("10.0.0.0/8"), Ok(("10.0.0.0", Some("8"))));
/// assert_eq!(parse::cidr_parts("10.0.0.0"), Ok(("10.0.0.0", None)));
/// ```
pub fn cidr_parts(cidr: &str) -> Result<(&str, Option<&str>), CidrFault> {
    match only_slash(cidr.as_bytes())? {
        None => Ok((cidr, None)),
        Some(at) => Ok((&cidr[..at], Some(&cidr[at + 1..]))),
    }
}

/// The number that the text of a prefix length names: an optional `+` and one or more decimal
/// digits, with any number of leading zeros. Any other text, or a number greater than `max`, is
/// refused with `CidrFault::Prefix`.
///
/// ```
/// # use fosibegan_core::in_examples::*;
/// assert_eq!(parse::parse_prefix("+08", 32), Ok(8));
/// assert_eq!(parse::parse_prefix("33", 32), Err(CidrFault::Prefix));
/// ```
pub fn parse_prefix(prefix: &str, max: u8) -> Result<u8, CidrFault> {
    match read_prefix(prefix.as_bytes(), max) {
        Some(value) => Ok(value),
        None => Err(CidrFault::Prefix),
    }
}

/// `cidr_parts` for bytes.
#[inline(always)]
pub(crate) fn split(text: &[u8]) -> Result<(&[u8], Option<&[u8]>), CidrFault> {
    match only_slash(text)? {
        None => Ok((text, None)),
        Some(at) => Ok((&text[..at], Some(&text[at + 1..]))),
    }
}

/// `parse_prefix` for bytes.
pub(crate) fn read_prefix(text: &[u8], max: u8) -> Option<u8> {
    if let Some(value) = read_two_digits(text, max) {
        return Some(value);
    }
    match read_number(text, u32::from(max)) {
        None => None,
        Some(value) => Some(value as u8),
    }
}

/// `read_prefix` for two digits, as in most prefix lengths. `None` says nothing about the text.
#[inline(always)]
fn read_two_digits(text: &[u8], max: u8) -> Option<u8> {
    if text.len() != 2 {
        return None;
    }
    let tens = text[0];
    let ones = text[1];
    if !tens.is_ascii_digit() {
        return None;
    }
    if !ones.is_ascii_digit() {
        return None;
    }
    let value = (tens - b'0') * 10 + (ones - b'0');
    if value > max { None } else { Some(value) }
}

/// The number that a text names as prefix lengths are written: an optional `+` and one or more
/// decimal digits, with any number of leading zeros. `None` for any other text, or if the number is
/// greater than `max`.
///
/// ```
/// # use fosibegan_core::in_examples::*;
/// assert_eq!(parse::read_number(b"0065535", 65_535), Some(65_535));
/// assert_eq!(parse::read_number(b"65536", 65_535), None);
/// ```
pub fn read_number(text: &[u8], max: u32) -> Option<u32> {
    match text {
        [b'+', digits @ ..] => read_digits(digits, max),
        _ => read_digits(text, max),
    }
}

/// The value of one or more decimal digits, or `None` if it is greater than `max` or the text is
/// not such digits.
fn read_digits(text: &[u8], max: u32) -> Option<u32> {
    if text.is_empty() {
        return None;
    }
    let mut value = 0;
    for byte in text {
        if !byte.is_ascii_digit() {
            return None;
        }
        let next = u64::from(value) * 10 + u64::from(*byte - b'0');
        if next > u64::from(max) {
            return None;
        }
        value = next as u32;
    }
    Some(value)
}

/// The position of the only `/` of a text, or `None` if there is no `/`.
#[inline(always)]
fn only_slash(text: &[u8]) -> Result<Option<usize>, CidrFault> {
    let Some(at) = find_from(text, 0, b'/') else {
        return Ok(None);
    };
    match find_from(text, at + 1, b'/') {
        None => Ok(Some(at)),
        Some(_) => Err(CidrFault::Format),
    }
}

/// The position of a `/` that has one to three bytes after it. There may be another `/` in the
/// text. `None` says nothing about the text, which must then be searched.
#[inline(always)]
pub(crate) fn slash_near_end(text: &[u8]) -> Option<usize> {
    let count = text.len();
    if count < 4 {
        return None;
    }
    // No branch depends on the length of the suffix: it would be mispredicted too often.
    let second = count - 2;
    let third = second - other_than_slash(text[second]);
    let at = third - other_than_slash(text[third]);
    if text[at] == b'/' { Some(at) } else { None }
}

/// 0 if the byte is a `/`, otherwise 1.
#[inline(always)]
fn other_than_slash(byte: u8) -> usize {
    usize::from(byte != b'/')
}
