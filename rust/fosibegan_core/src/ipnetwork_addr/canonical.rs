// Written by scripts/plain out of crates/ipnetwork_addr/src/canonical.rt

//! The canonical text of an IPv6 address.

use crate::ipnetwork_addr::hexadecimal::push_groups;
use crate::ipnetwork_addr::segments::half;
use crate::ipnetwork_addr::{ADDRESS_TEXT_CAPACITY, Ipv4Addr};
use crate::plain_std::arrayvec::ArrayString;

/// The least number of zero groups that are written as `::`.
const SHORTEST_GAP: usize = 2;

/// The fifth and sixth groups of an IPv4-mapped address (`::ffff:0:0/96`), as one number. The
/// groups before them are 0.
const MAPPED_GROUPS: u32 = 0xffff;

/// Returns the canonical text of the address with these groups, highest first.
pub(crate) fn canonical_text(groups: &[u16; 8]) -> ArrayString<ADDRESS_TEXT_CAPACITY> {
    let mut text = ArrayString::new();
    if is_mapped(groups) {
        let last = Ipv4Addr::from(last_two(groups)).canonical();
        text.push_str("::ffff:");
        text.push_text(&last);
        return text;
    }
    let (start, len) = longest_run(groups);
    if len >= SHORTEST_GAP {
        push_groups(&mut text, &groups[..start]);
        text.push_str("::");
        push_groups(&mut text, &groups[start + len..]);
        return text;
    }
    push_groups(&mut text, groups);
    text
}

/// Returns whether the address with these groups is IPv4-mapped.
fn is_mapped(groups: &[u16; 8]) -> bool {
    let [a, b, c, d, e, f, _, _] = *groups;
    if half(a, b, c, d) != 0 {
        return false;
    }
    u32::from(e) * 0x1_0000 + u32::from(f) == MAPPED_GROUPS
}

/// Returns the last two groups as an IPv4 address.
fn last_two(groups: &[u16; 8]) -> u32 {
    let [_, _, _, _, _, _, g, h] = *groups;
    u32::from(g) * 0x1_0000 + u32::from(h)
}

/// Returns the first group and the length of the longest run of zero groups; the leftmost if
/// several are equally long. The length is 0 if no group is zero.
fn longest_run(groups: &[u16; 8]) -> (usize, usize) {
    let mut longest = (0, 0);
    let mut start = 0;
    for position in 0..8 {
        if groups[position] != 0 {
            start = position + 1;
        } else if longest.1 < position + 1 - start {
            longest = (start, position + 1 - start);
        }
    }
    longest
}
