// Written by scripts/plain out of crates/ipnetwork_addr/src/segments.rt

//! A 128-bit address as eight segments of 16 bits: their order, and the numbers and octets that
//! they make up.

/// Returns the segments in reverse order.
#[inline]
pub(crate) fn reversed(segments: &[u16; 8]) -> [u16; 8] {
    let [a, b, c, d, e, f, g, h] = *segments;
    [h, g, f, e, d, c, b, a]
}

/// Returns the high and the low half of an address, 64 bits each, from its segments, lowest first.
#[inline]
pub(crate) fn halves(low_first: &[u16; 8]) -> (u64, u64) {
    let [h, g, f, e, d, c, b, a] = *low_first;
    (half(a, b, c, d), half(e, f, g, h))
}

/// Returns the number that four segments make up, highest first.
#[inline]
pub(crate) fn half(a: u16, b: u16, c: u16, d: u16) -> u64 {
    let two = u64::from(a) * 0x1_0000 + u64::from(b);
    (two * 0x1_0000 + u64::from(c)) * 0x1_0000 + u64::from(d)
}

/// The factor of the high half in the number of an address.
const HALF: u128 = 0x1_0000_0000_0000_0000;

/// Returns the high half of a number and the low one.
#[inline(always)]
pub(crate) fn halves_of_number(number: u128) -> (u64, u64) {
    ((number / HALF) as u64, (number % HALF) as u64)
}

/// Returns the number with these halves.
#[inline]
pub(crate) fn number_of_halves(high: u64, low: u64) -> u128 {
    u128::from(high) * HALF + u128::from(low)
}

/// Returns the segments of the address with these halves, lowest first.
#[inline]
pub(crate) fn low_first_of(high: u64, low: u64) -> [u16; 8] {
    let [h, g, f, e] = half_low_first(low);
    let [d, c, b, a] = half_low_first(high);
    [h, g, f, e, d, c, b, a]
}

/// Returns the four segments of a half, lowest first.
#[inline]
fn half_low_first(half: u64) -> [u16; 4] {
    [
        (half % 0x1_0000) as u16,
        (half / 0x1_0000 % 0x1_0000) as u16,
        (half / 0x1_0000_0000 % 0x1_0000) as u16,
        (half / 0x1_0000_0000_0000) as u16,
    ]
}

/// Returns the sixteen octets, lowest first, of the address with these segments, highest first.
#[inline]
pub(crate) fn octets_low_first(segments: &[u16; 8]) -> [u8; 16] {
    let [a, b, c, d, e, f, g, h] = *segments;
    [
        low_octet(h),
        high_octet(h),
        low_octet(g),
        high_octet(g),
        low_octet(f),
        high_octet(f),
        low_octet(e),
        high_octet(e),
        low_octet(d),
        high_octet(d),
        low_octet(c),
        high_octet(c),
        low_octet(b),
        high_octet(b),
        low_octet(a),
        high_octet(a),
    ]
}

/// Returns the sixteen octets, highest first, of the address with these segments, highest first.
#[inline]
pub(crate) fn octets_high_first(segments: &[u16; 8]) -> [u8; 16] {
    let [a, b, c, d, e, f, g, h] = *segments;
    [
        high_octet(a),
        low_octet(a),
        high_octet(b),
        low_octet(b),
        high_octet(c),
        low_octet(c),
        high_octet(d),
        low_octet(d),
        high_octet(e),
        low_octet(e),
        high_octet(f),
        low_octet(f),
        high_octet(g),
        low_octet(g),
        high_octet(h),
        low_octet(h),
    ]
}

/// Returns the octet of the low bits of a segment.
#[inline]
fn low_octet(segment: u16) -> u8 {
    (segment % 256) as u8
}

/// Returns the octet of the high bits of a segment.
#[inline]
fn high_octet(segment: u16) -> u8 {
    (segment / 256) as u8
}
