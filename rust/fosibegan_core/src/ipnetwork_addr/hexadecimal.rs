// Written by scripts/plain out of crates/ipnetwork_addr/src/hexadecimal.rt

//! Writes groups of an IPv6 address in hex at the end of a text.

use crate::ipnetwork_addr::ADDRESS_TEXT_CAPACITY;
use crate::plain_std::arrayvec::ArrayString;

/// Appends groups in shortest lower-case hex, joined by `:`.
#[inline]
pub(crate) fn push_groups(text: &mut ArrayString<ADDRESS_TEXT_CAPACITY>, groups: &[u16]) {
    if let [first, rest @ ..] = groups {
        push_hex(text, *first);
        for group in rest {
            text.push(':');
            push_hex(text, *group);
        }
    }
}

/// Appends the shortest lower-case hex form of a group: one to four bytes.
#[inline(always)]
fn push_hex(text: &mut ArrayString<ADDRESS_TEXT_CAPACITY>, group: u16) {
    if group >= 0x1000 {
        text.push_all([
            hex_digit(group / 0x1000),
            hex_digit(group / 0x100 % 16),
            hex_digit(group / 0x10 % 16),
            hex_digit(group % 16),
        ]);
    } else if group >= 0x100 {
        text.push_all([
            hex_digit(group / 0x100),
            hex_digit(group / 0x10 % 16),
            hex_digit(group % 16),
        ]);
    } else if group >= 0x10 {
        text.push_all([hex_digit(group / 0x10), hex_digit(group % 16)]);
    } else {
        text.push(hex_digit(group));
    }
}

fn hex_digit(value: u16) -> char {
    if value < 10 {
        char::from(b'0' + value as u8)
    } else {
        char::from(b'a' + (value - 10) as u8)
    }
}
