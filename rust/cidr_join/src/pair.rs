// Written by scripts/plain out of crates/cidr_join/src/pair.rt

//! Two addresses at the front of a line.

use fosibegan_core::ipnetwork::{IpAddr, IpNetwork, ipv4_mask_to_prefix};
use cidr_programs::lists::{ByteKind, Entry, front_len, meant_by_mask};

/// Two addresses, one after the other.
#[derive(Clone, Copy, Debug)]
pub struct Pair {
    /// The first one.
    pub first: IpAddr,
    /// The second one.
    pub second: IpAddr,
}

/// Returns the addresses that a text and the first word of a value are, if both are one.
pub(crate) fn pair_of(front: &[u8], value: &[u8]) -> Option<Pair> {
    if ends_in_prefix(front) {
        return None;
    }
    // Most values begin with no address: only if one does, `front` is read once more.
    match address_of(first_word(value)) {
        Some(second) => match address_of(front) {
            Some(first) => Some(Pair { first, second }),
            None => None,
        },
        None => None,
    }
}

// Whether one or two bytes after a `/` end a text, which then is no address: `10.0.0.0/8`.
fn ends_in_prefix(text: &[u8]) -> bool {
    // These do nothing: the proof of this body needs the laws.
    let count = text.len();
    count > 2 && (text[count - 3] == b'/' || text[count - 2] == b'/')
}

// Returns the first word of a value: what comes before a space, a tab or a comma.
fn first_word(value: &[u8]) -> &[u8] {
    &value[..front_len::<OfWord>(value)]
}

// Returns the address that a text names.
fn address_of(text: &[u8]) -> Option<IpAddr> {
    // Does nothing: the proof of this body needs the law.
    IpAddr::read_bytes(text).ok()
}

impl Pair {
    /// Whether both are of one family.
    pub(crate) fn are_one_family(self) -> bool {
        match self.first {
            IpAddr::V4(_) => matches!(self.second, IpAddr::V4(_)),
            IpAddr::V6(_) => matches!(self.second, IpAddr::V6(_)),
        }
    }

    /// Returns the range from the first to the second, unless they are of two families or the
    /// second is before the first.
    pub(crate) fn range(self) -> Option<Entry> {
        if !is_range(&self.first, &self.second) {
            return None;
        }
        Some(Entry::Range {
            first: self.first,
            last: self.second,
        })
    }

    /// Returns the network of an address and the mask or wildcard after it, if they are these; it is
    /// for messages, and no clause says which.
    pub(crate) fn masked(self) -> Option<IpNetwork> {
        meant_by_mask(self.first, self.second)
    }

    /// Whether the two are probably a range: the first is not after the second, and the second is
    /// no mask.
    pub(crate) fn is_likely_range(self) -> bool {
        is_range(&self.first, &self.second) && !is_mask(self.second)
    }
}

// Whether two addresses are of one family, and the first is not after the last.
fn is_range(first: &IpAddr, last: &IpAddr) -> bool {
    if let (IpAddr::V4(_), IpAddr::V6(_)) = (first, last) {
        return false;
    }
    first <= last
}

// Whether an address is a mask of IPv4.
fn is_mask(address: IpAddr) -> bool {
    match address {
        IpAddr::V4(mask) => ipv4_mask_to_prefix(mask).is_ok(),
        IpAddr::V6(_) => false,
    }
}

/// Neither a space nor a tab nor a comma.
pub(crate) struct OfWord;

impl ByteKind for OfWord {
    fn has(byte: u8) -> bool {
        byte != b' ' && byte != b'\t' && byte != b','
    }
}
