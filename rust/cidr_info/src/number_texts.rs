// Written by scripts/plain out of crates/cidr_info/src/number_texts.rt

//! Decimal and hexadecimal texts of numbers.

use crate::value::VALUE_MAX;
use fosibegan_core::plain_std::arrayvec::ArrayString;
use fosibegan_core::ipnetwork_addr::decimal::push_number;

/// Returns two to the power of `bits`, in decimal.
pub(crate) fn power_text(bits: u8) -> ArrayString<VALUE_MAX> {
    if bits == 128 {
        let mut text = ArrayString::new();
        text.push_str("340282366920938463463374607431768211456");
        return text;
    }
    decimal_text(1 << bits)
}

/// Returns a number in decimal.
pub(crate) fn decimal_text(number: u128) -> ArrayString<VALUE_MAX> {
    let mut text = ArrayString::new();
    push_number(&mut text, number);
    text
}

/// Returns `0x` and the last `count` hexadecimal digits of a number.
pub(crate) fn hex_text(number: u128, count: u8) -> ArrayString<VALUE_MAX> {
    let mut text = ArrayString::new();
    text.push_str("0x");
    push_hex(&mut text, number, count);
    text
}

/// Appends the last `count` hexadecimal digits of a number.
#[inline]
pub(crate) fn push_hex(text: &mut ArrayString<VALUE_MAX>, number: u128, count: u8) {
    if count > 0 {
        push_hex(text, number / 16, count - 1);
        text.push(hex_digit((number % 16) as u8));
    }
}

/// Returns the character of a hexadecimal digit.
pub(crate) fn hex_digit(digit: u8) -> char {
    if digit < 10 {
        char::from(b'0' + digit)
    } else {
        char::from(b'a' + (digit - 10))
    }
}
