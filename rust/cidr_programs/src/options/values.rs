// Written by scripts/plain out of crates/options/src/values.rt

//! Reads the values of options.

use crate::options::table::Kind;
use crate::line_addresses::{Place, is_number, number_of, ordinal_in};

/// Whether the text is a value of this kind.
pub(crate) fn is_right(kind: Kind, value: &str) -> bool {
    match kind {
        Kind::Flag => true,
        Kind::Alone => false,
        Kind::File | Kind::Text => !value.is_empty(),
        Kind::Number => is_number(value.as_bytes()),
        Kind::Field => Place::read(value.as_bytes()).is_some(),
        Kind::Nth => {
            value == "first" || value == "last" || ordinal_in(value.as_bytes()).is_some()
        }
        Kind::Separator => is_separator(value.as_bytes()),
        Kind::Rule => { value == "drop" || value == "keep" || value == "stop" || value == "report" }
        Kind::Form => value == "csv" || value == "ipset" || value == "nft",
        Kind::Lengths => lengths_in(value).is_some(),
    }
}

// Whether the text is one byte of ASCII other than LF, CR and NUL.
fn is_separator(text: &[u8]) -> bool {
    match text {
        [byte] => *byte < 128 && *byte != b'\n' && *byte != b'\r' && *byte != 0,
        _ => false,
    }
}

/// Returns the number that a value is, or `u64::MAX` if the number is greater. Returns `None` if it
/// is not a number.
///
/// ```
/// # use cidr_programs::in_examples::*;
/// assert_eq!(cidr_programs::options::values::number_in("07"), Some(7));
/// ```
pub fn number_in(value: &str) -> Option<u64> {
    if !is_number(value.as_bytes()) {
        return None;
    }
    Some(number_of(value.as_bytes()))
}

/// Returns the byte of a value of exactly one byte, or `None` for any other value.
///
/// ```
/// # use cidr_programs::in_examples::*;
/// assert_eq!(cidr_programs::options::values::byte_in(","), Some(b','));
/// ```
pub fn byte_in(value: &str) -> Option<u8> {
    match value.as_bytes() {
        [byte] => Some(*byte),
        _ => None,
    }
}

/// Returns the two prefix lengths of a value, or `None` if it is not two numbers with a comma
/// between them, or the first is greater than 32 or the second greater than 128.
///
/// ```
/// # use cidr_programs::in_examples::*;
/// assert_eq!(cidr_programs::options::values::lengths_in("24,064"), Some((24, 64)));
/// ```
pub fn lengths_in(value: &str) -> Option<(u8, u8)> {
    let Some((first, second)) = value.split_once(',') else {
        return None;
    };
    match (
        length_in(first.as_bytes(), 32),
        length_in(second.as_bytes(), 128),
    ) {
        (Some(first), Some(second)) => Some((first, second)),
        _ => None,
    }
}

/// Returns the number that a text is, or `None` if it is not a number or is greater than
/// `greatest`.
///
/// ```
/// # use cidr_programs::in_examples::*;
/// assert_eq!(cidr_programs::options::values::length_in(b"064", 128), Some(64));
/// ```
pub fn length_in(text: &[u8], greatest: u8) -> Option<u8> {
    if !is_number(text) {
        return None;
    }
    let number = number_of(text);
    if number > u64::from(greatest) {
        return None;
    }
    match u8::try_from(number) {
        Ok(number) => Some(number),
        Err(_) => None,
    }
}
