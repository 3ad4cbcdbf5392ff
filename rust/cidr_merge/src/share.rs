// Written by scripts/plain out of crates/cidr_merge/src/share.rt

//! Which part of a network is used.

use fosibegan_core::plain_std::arrayvec::ArrayString;
use fosibegan_core::ipnetwork_addr::decimal::push_number;
use fosibegan_core::ipnetwork_sets::AddressCount;

/// A part of a whole as a text: percent, with one digit after the point.
pub(crate) type ShareText = ArrayString<80>;

/// Returns which part of a network with so many host bits is used: percent, with one digit after
/// the point, rounded down.
pub(crate) fn share(used: AddressCount, host_bits: u8) -> ShareText {
    let tenths = thousandths(used, host_bits);
    let mut text = ArrayString::new();
    push_number(&mut text, tenths / 10);
    text.push('.');
    push_number(&mut text, tenths % 10);
    text
}

// Returns how many thousandths of a network with so many host bits are used, rounded down.
fn thousandths(used: AddressCount, host_bits: u8) -> u128 {
    let AddressCount::Number(number) = used else {
        return 1000;
    };
    if host_bits < 64 {
        return (number * 1000) >> host_bits;
    }
    let high = (number >> 64) * 1000 + (((number & 0xffff_ffff_ffff_ffff) * 1000) >> 64);
    high >> (host_bits - 64)
}
