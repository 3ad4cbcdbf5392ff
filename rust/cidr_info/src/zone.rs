// Written by scripts/plain out of crates/cidr_info/src/zone.rt

//! The zones that hold the reverse names of a network.

use crate::number_texts::{hex_digit, push_hex};
use crate::value::VALUE_MAX;
use fosibegan_core::plain_std::arrayvec::ArrayString;
use fosibegan_core::ipnetwork::{IpNetwork, Ipv4Network, Ipv6Network};
use fosibegan_core::ipnetwork_addr::decimal::{push_decimal, push_number};

/// Returns the reverse zone of the octets that the prefix length of a network covers in full, or of
/// the nibbles of an IPv6 network.
pub(crate) fn zone_text(network: &IpNetwork) -> ArrayString<VALUE_MAX> {
    let mut text = ArrayString::new();
    match network {
        IpNetwork::V4(network) => push_v4_zone(&mut text, network),
        IpNetwork::V6(network) => push_v6_zone(&mut text, network),
    }
    text
}

/// Returns how many reverse zones a network has.
pub(crate) fn zone_count(network: &IpNetwork) -> u8 {
    match network {
        IpNetwork::V4(network) if network.prefix() < 24 => 1 << ((8 - network.prefix() % 8) % 8),
        IpNetwork::V4(_) => 1,
        IpNetwork::V6(network) => 1 << ((4 - network.prefix() % 4) % 4),
    }
}

/// Returns the reverse zone of a network that comes after `place` others.
pub(crate) fn zone_at(network: &IpNetwork, place: u8) -> ArrayString<VALUE_MAX> {
    let mut text = ArrayString::new();
    match network {
        IpNetwork::V4(network) => {
            push_octet_label(&mut text, network, place);
            push_v4_zone(&mut text, network);
        }
        IpNetwork::V6(network) => {
            push_nibble_label(&mut text, network, place);
            push_v6_zone(&mut text, network);
        }
    }
    text
}

// Appends the label of the octet that the prefix length covers in part, in the zone that comes
// after `place` others.
#[inline]
fn push_octet_label(text: &mut ArrayString<VALUE_MAX>, network: &Ipv4Network, place: u8) {
    let prefix = network.prefix();
    if prefix < 24 && prefix % 8 > 0 {
        let octet = octet_at(prefix / 8, u32::from(network.network()));
        push_number(text, u128::from(octet) + u128::from(place));
        text.push_str(".");
    }
}

// Appends the label of the nibble that the prefix length covers in part, in the zone that comes
// after `place` others.
#[inline]
fn push_nibble_label(text: &mut ArrayString<VALUE_MAX>, network: &Ipv6Network, place: u8) {
    let prefix = network.prefix();
    if prefix % 4 > 0 {
        let nibble = nibble_at(prefix / 4, u128::from(network.network()));
        push_hex(text, u128::from(nibble) + u128::from(place), 1);
        text.push_str(".");
    }
}

// Appends the reverse zone of the octets that the prefix length covers in full.
#[inline]
fn push_v4_zone(text: &mut ArrayString<VALUE_MAX>, network: &Ipv4Network) {
    push_octets(text, u32::from(network.ip()), network.prefix() / 8);
    text.push_str("in-addr.arpa");
}

// Appends the reverse zone of the nibbles that the prefix length covers in full.
#[inline]
fn push_v6_zone(text: &mut ArrayString<VALUE_MAX>, network: &Ipv6Network) {
    push_nibbles(text, u128::from(network.ip()), network.prefix() / 4);
    text.push_str("ip6.arpa");
}

// Appends the first `count` octets of an address, the last of them first, each followed by a dot.
#[inline]
fn push_octets(text: &mut ArrayString<VALUE_MAX>, address: u32, count: u8) {
    if count > 0 {
        push_decimal(text, octet_at(count - 1, address));
        text.push_str(".");
        push_octets(text, address, count - 1);
    }
}

// Returns the octet of an address that comes after `place` others.
fn octet_at(place: u8, address: u32) -> u8 {
    ((address >> (8 * (3 - place))) % 256) as u8
}

// Appends the first `count` nibbles of an address, the last of them first, each followed by a dot.
#[inline]
fn push_nibbles(text: &mut ArrayString<VALUE_MAX>, address: u128, count: u8) {
    if count > 0 {
        text.push(hex_digit(nibble_at(count - 1, address)));
        text.push_str(".");
        push_nibbles(text, address, count - 1);
    }
}

// Returns the nibble of an address that comes after `place` others.
fn nibble_at(place: u8, address: u128) -> u8 {
    ((address >> (4 * (31 - place))) % 16) as u8
}
