// Written by scripts/plain out of crates/ipnetwork_addr/src/decimal.rt

//! Writes numbers in decimal at the end of a text.

use crate::plain_std::arrayvec::ArrayString;

/// Appends the shortest decimal form of a number to a text: one to three bytes. There must be room
/// for three.
///
/// ```
/// # use fosibegan_core::in_examples::*;
/// let mut text = fosibegan_core::plain_std::arrayvec::ArrayString::<8>::new();
/// decimal::push_decimal(&mut text, 207);
/// assert_eq!(text.as_str(), "207");
/// ```
///
/// # Panics
///
/// Panics if there is no room for three digits.
#[inline]
pub fn push_decimal<const N: usize>(text: &mut ArrayString<N>, number: u8) {
    assert!(N - text.len() >= 3, "push_decimal: there is no room for three digits");
    if number >= 100 {
        text.push_all([digit(number / 100), digit(number / 10 % 10), digit(number % 10)]);
    } else if number >= 10 {
        text.push_all([digit(number / 10), digit(number % 10)]);
    } else {
        text.push(digit(number));
    }
}

fn digit(value: u8) -> char {
    char::from(b'0' + value)
}

/// Ten to the power of `CHUNK_DIGITS`: the greatest power of ten that fits in 64 bits.
const CHUNK: u128 = 10_000_000_000_000_000_000;

/// The number of digits of a large number that are written at a time.
const CHUNK_DIGITS: u8 = 19;

/// Appends the shortest decimal form of a number to a text: one to 39 bytes. There must be room for
/// 39.
///
/// ```
/// # use fosibegan_core::in_examples::*;
/// let mut text = fosibegan_core::plain_std::arrayvec::ArrayString::<39>::new();
/// decimal::push_number(&mut text, 1 << 64);
/// assert_eq!(text.as_str(), "18446744073709551616");
/// ```
///
/// # Panics
///
/// Panics if there is no room for 39 digits.
#[inline(always)]
pub fn push_number<const N: usize>(text: &mut ArrayString<N>, number: u128) {
    assert!(N - text.len() >= 39, "push_number: there is no room for 39 digits");
    let high = number / CHUNK;
    let low = (number % CHUNK) as u64;
    if high == 0 {
        push_shortest(text, low);
    } else if high < CHUNK {
        push_shortest(text, high as u64);
        push_padded(text, low, CHUNK_DIGITS);
    } else {
        text.push(digit((high / CHUNK) as u8));
        push_padded(text, (high % CHUNK) as u64, CHUNK_DIGITS);
        push_padded(text, low, CHUNK_DIGITS);
    }
}

/// Appends the shortest decimal form of a number: one to 20 bytes.
#[inline]
fn push_shortest<const N: usize>(text: &mut ArrayString<N>, number: u64) {
    push_padded(text, number, digit_count(number));
}

/// Returns the number of digits of a number's shortest decimal form.
fn digit_count(number: u64) -> u8 {
    let mut count = 1;
    let mut rest = number;
    'digits: while rest >= 10 {
        count += 1;
        rest /= 10;
    }
    count
}

/// Appends the last `count` decimal digits of a number, with leading zeros.
#[inline]
fn push_padded<const N: usize>(text: &mut ArrayString<N>, number: u64, count: u8) {
    if count == 0 {
        return;
    }
    if count == 1 {
        text.push(digit((number % 10) as u8));
        return;
    }
    push_padded(text, number / 100, count - 2);
    let two = (number % 100) as u8;
    text.push_all([digit(two / 10), digit(two % 10)]);
}
