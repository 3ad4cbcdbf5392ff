// Written by scripts/plain out of crates/program/src/escapes.rt

//! Prints the texts of others, with what a terminal obeys, and what changes how a line looks,
//! escaped.

use crate::program::messages::{tell, tell_bytes};
use crate::lines::output::Output;
use fosibegan_core::plain_std::io::Write;

/// Writes a line with what a terminal obeys or hides escaped: `\x1b` stands for the byte 27.
///
/// Escaped are the control characters, other than the tab; the characters that turn others round,
/// end a line or are not seen, with each byte that they have in UTF-8; and each byte that is not
/// part of a character in UTF-8. Not seen are those of Unicode's property
/// Default_Ignorable_Code_Point, such as U+00AD, U+200B and U+E0041, and U+FFF9 to U+FFFB. If a
/// write fails, now or earlier, the rest is lost.
///
/// ```
/// # use cidr_programs::in_examples::*;
/// let (mut slice, mut room) = ([0; 16], [0; 9]);
/// let mut output = cidr_programs::lines::output::Output::new(room.as_mut_slice(), &mut slice);
/// cidr_programs::program::escapes::tell_escaped(b"10\x1b[2J", &mut output);
/// assert_eq!(output.finish(), Ok(()));
/// drop(output);
/// assert_eq!(room, *b"10\\x1b[2J");
/// ```
pub fn tell_escaped<W: Write>(bytes: &[u8], output: &mut Output<'_, W>) {
    tell_all(true, bytes, output);
}

/// Writes a name or word as `tell_escaped` writes a line, with its tabs escaped too.
///
/// ```
/// # use cidr_programs::in_examples::*;
/// let (mut slice, mut room) = ([0; 16], [0; 7]);
/// let mut output = cidr_programs::lines::output::Output::new(room.as_mut_slice(), &mut slice);
/// cidr_programs::program::escapes::tell_escaped_word(b"log\t", &mut output);
/// assert_eq!(output.finish(), Ok(()));
/// drop(output);
/// assert_eq!(room, *b"log\\x09");
/// ```
pub fn tell_escaped_word<W: Write>(bytes: &[u8], output: &mut Output<'_, W>) {
    tell_all(false, bytes, output);
}

// Writes bytes with what is hidden in them escaped, and tabs too if they are not kept.
fn tell_all<W: Write>(keeps_tabs: bool, bytes: &[u8], output: &mut Output<'_, W>) {
    let mut kept = 0;
    let mut at = 0;
    while at < bytes.len() {
        let now = kept_at(keeps_tabs, kept, &bytes[at..]);
        tell_byte(now, bytes[at], output);
        kept = now.saturating_sub(1);
        at += 1;
    }
}

// Returns how many bytes are shown as they are from here on, if `kept` are left of the character
// before.
fn kept_at(keeps_tabs: bool, kept: usize, bytes: &[u8]) -> usize {
    if kept == 0 {
        shown_width(keeps_tabs, bytes)
    } else {
        kept
    }
}

// Writes a byte as it is, or escaped if none is kept.
fn tell_byte<W: Write>(kept: usize, byte: u8, output: &mut Output<'_, W>) {
    if kept == 0 {
        tell("\\x", output);
        tell_bytes(&[hex_digit(byte / 16), hex_digit(byte % 16)], output);
    } else {
        tell_bytes(&[byte], output);
    }
}

// Returns how many bytes are shown as they are at the start of bytes: those of one character, or 0
// if it is hidden or there is none.
fn shown_width(keeps_tabs: bool, bytes: &[u8]) -> usize {
    let first = byte_at(bytes, 0);
    let (second, third, fourth) = (byte_at(bytes, 1), byte_at(bytes, 2), byte_at(bytes, 3));
    if is_hidden(keeps_tabs, first, second, third, fourth) {
        0
    } else {
        width(bytes)
    }
}

// Returns a byte of some, or 0 after their end.
fn byte_at(bytes: &[u8], at: usize) -> u8 {
    if at < bytes.len() { bytes[at] } else { 0 }
}

// Returns the length of the character that the bytes begin with in UTF-8, or 0 if they begin with
// none.
fn width(bytes: &[u8]) -> usize {
    let first = byte_at(bytes, 0);
    if first < 0x80 {
        1
    } else if !is_in_range(0xC2, 0xF4, first) || !is_second(first, byte_at(bytes, 1)) {
        0
    } else if first < 0xE0 {
        2
    } else if !is_in_range(0x80, 0xBF, byte_at(bytes, 2)) {
        0
    } else if first < 0xF0 {
        3
    } else if is_in_range(0x80, 0xBF, byte_at(bytes, 3)) {
        4
    } else {
        0
    }
}

// Whether a byte may follow the first byte of a character in UTF-8.
fn is_second(first: u8, second: u8) -> bool {
    match first {
        0xE0 => is_in_range(0xA0, 0xBF, second),
        0xED => is_in_range(0x80, 0x9F, second),
        0xF0 => is_in_range(0x90, 0xBF, second),
        0xF4 => is_in_range(0x80, 0x8F, second),
        _ => is_in_range(0x80, 0xBF, second),
    }
}

// Whether a byte is from the least to the greatest.
fn is_in_range(least: u8, greatest: u8, byte: u8) -> bool {
    least <= byte && byte <= greatest
}

// Whether the character that four bytes of UTF-8 begin with is hidden.
fn is_hidden(keeps_tabs: bool, first: u8, second: u8, third: u8, fourth: u8) -> bool {
    is_control(keeps_tabs, first)
        || is_hidden_pair(first, second)
        || is_format(first, second, third)
        || is_special(first, second, third)
        || is_hidden_four(first, second, third, fourth)
}

// Whether a byte is a control character of ASCII, and not a tab that is kept.
fn is_control(keeps_tabs: bool, byte: u8) -> bool {
    byte < 32 && !(keeps_tabs && byte == b'\t') || byte == 127
}

// Whether two bytes of UTF-8 are a control character or one that is not seen.
fn is_hidden_pair(first: u8, second: u8) -> bool {
    first == 0xC2 && (second < 0xA0 || second == 0xAD)
        || first == 0xCD && second == 0x8F
        || first == 0xD8 && second == 0x9C
}

// Whether three bytes of UTF-8 are a character from U+1000 to U+3FFF that turns others, ends a
// line or is not seen.
fn is_format(first: u8, second: u8, third: u8) -> bool {
    let is_general = is_in_range(0x8B, 0x8F, third) || is_in_range(0xA8, 0xAE, third);
    let is_filler = second == 0x85 && is_in_range(0x9F, 0xA0, third)
        || second == 0x9E && is_in_range(0xB4, 0xB5, third)
        || second == 0xA0 && is_in_range(0x8B, 0x8F, third);
    first == 0xE1 && is_filler
        || first == 0xE2 && second == 0x80 && is_general
        || first == 0xE2 && second == 0x81 && is_in_range(0xA0, 0xAF, third)
        || first == 0xE3 && second == 0x85 && third == 0xA4
}

// Whether three bytes of UTF-8 are a character from U+F000 to U+FFFF that is not seen.
fn is_special(first: u8, second: u8, third: u8) -> bool {
    let is_unseen = second == 0xB8 && is_in_range(0x80, 0x8F, third)
        || second == 0xBB && third == 0xBF
        || second == 0xBE && third == 0xA0
        || second == 0xBF && is_in_range(0xB0, 0xBB, third);
    first == 0xEF && is_unseen
}

// Whether four bytes of UTF-8 are a character that is not seen.
fn is_hidden_four(first: u8, second: u8, third: u8, fourth: u8) -> bool {
    let is_step = second == 0x9B && third == 0xB2 && is_in_range(0xA0, 0xA3, fourth);
    let is_music = second == 0x9D && third == 0x85 && is_in_range(0xB3, 0xBA, fourth);
    first == 0xF0 && (is_step || is_music) || first == 0xF3 && second == 0xA0
}

/// Returns the character of a hexadecimal digit.
pub(crate) fn hex_digit(digit: u8) -> u8 {
    if digit < 10 {
        b'0' + digit
    } else {
        b'a' + (digit - 10)
    }
}
