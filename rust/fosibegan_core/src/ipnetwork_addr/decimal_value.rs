// Written by scripts/plain out of crates/ipnetwork_addr/src/decimal_value.rt

//! The values of bytes as parts of an octet, by tables.

/// Returns the value of a byte as a decimal digit, or 256 if it is none, so that an octet with such
/// a byte exceeds 255.
#[inline(always)]
pub(crate) fn decimal_value(byte: u8) -> u32 {
    DIGITS[usize::from(byte)]
}

/// Returns ten times the value of a byte as the first of several decimal digits, or 2560 if the
/// byte is `0` or not a digit.
#[inline(always)]
pub(crate) fn first_value(byte: u8) -> u32 {
    FIRST_DIGITS[usize::from(byte)]
}

/// Returns 0 if the byte is a dot, else 1.
#[inline(always)]
pub(crate) fn is_no_dot(byte: u8) -> u32 {
    NO_DOTS[usize::from(byte)]
}

/// Returns the factor of two digits before this byte: 1 if it is a dot, else 10.
#[inline(always)]
pub(crate) fn factor_before(byte: u8) -> u32 {
    FACTORS[usize::from(byte)]
}

/// Returns 0 if the byte is a dot, else its `decimal_value`.
#[inline(always)]
pub(crate) fn value_unless_dot(byte: u8) -> u32 {
    DIGITS_OR_DOT[usize::from(byte)]
}

/// A table of all bytes: `$dot` for the dot, `$digits` for the digits, `$other` for all others.
macro_rules! by_byte {
    ($other:tt, $dot:tt, $digits:tt) => {
        by_byte!(
            [$other $other $other $other $other $other $other $other $other $other $other
            $other $other $other $other $other $other $other $other $other $other $other],
            $other, $dot, $digits
        )
    };
    ([$($others:tt)*], $other:tt, $dot:tt, [$($digit:tt)*]) => {
        [
            $($others,)* $($others,)* $other, $other, $dot, $other, $($digit,)*
            $($others,)* $($others,)* $($others,)* $($others,)* $($others,)* $($others,)*
            $($others,)* $($others,)* $($others,)*
        ]
    };
}

/// The `decimal_value` of each byte.
const DIGITS: [u32; 256] = by_byte!(256, 256, [0 1 2 3 4 5 6 7 8 9]);

/// The `first_value` of each byte.
const FIRST_DIGITS: [u32; 256] = by_byte!(2560, 2560, [2560 10 20 30 40 50 60 70 80 90]);

/// The `is_no_dot` of each byte.
const NO_DOTS: [u32; 256] = by_byte!(1, 0, [1 1 1 1 1 1 1 1 1 1]);

/// The `factor_before` of each byte.
const FACTORS: [u32; 256] = by_byte!(10, 1, [10 10 10 10 10 10 10 10 10 10]);

/// The `value_unless_dot` of each byte.
const DIGITS_OR_DOT: [u32; 256] = by_byte!(256, 0, [0 1 2 3 4 5 6 7 8 9]);
