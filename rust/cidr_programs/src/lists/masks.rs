// Written by scripts/plain out of crates/lists/src/masks.rt

//! Reads entries of two words: an IPv4 address, and its mask or wildcard.

use crate::lists::comment::{comment_text, without_comment};
use crate::lists::entry::{Entry, EntryFault, names_entry, read_entry};
use crate::lists::trimming::{Blank, ByteKind, front_len, trim};
use fosibegan_core::ipnetwork::{IpNetwork, Ipv4Addr, Ipv4Network, ipv4_mask_to_prefix};

/// Reads a line whose entry may be of two words (see `read_entry_by`).
pub(crate) fn read_with_masks(line: &[u8]) -> Result<Option<Entry>, EntryFault> {
    let text = trim::<Blank>(without_comment(line));
    if text.is_empty() {
        return Ok(None);
    }
    let comment = comment_text(line);
    match read_masked(text) {
        Ok(None) => read_word(line, comment),
        Ok(Some(_)) if says_some(comment) => Err(EntryFault::Second),
        read => read,
    }
}

// Reads a line whose entry is not of two words, and whose comment is this text.
fn read_word(line: &[u8], comment: &[u8]) -> Result<Option<Entry>, EntryFault> {
    match read_entry(line) {
        Ok(Some(_)) if says_some(comment) => Err(EntryFault::Second),
        read => read,
    }
}

// Whether a text names an entry or is unclear.
fn says_some(text: &[u8]) -> bool {
    match read_masked(text) {
        Ok(None) => names_entry(text),
        _ => true,
    }
}

// Returns the network of an address and its mask or wildcard, or nothing if the text is none.
fn read_masked(text: &[u8]) -> Result<Option<Entry>, EntryFault> {
    // This call does nothing: the proof of this body needs its law, since other addresses of the
    // same words would be another network.
    let count = front_len::<WordByte>(text);
    let Ok(number) = Ipv4Addr::read_bytes(trim::<Blank>(&text[count..])) else {
        return Ok(None);
    };
    let Ok(address) = Ipv4Addr::read_bytes(&text[..count]) else {
        return Ok(None);
    };
    match length_said(address, number) {
        Ok(Some(prefix)) => Ok(network_of(address, prefix)),
        Ok(None) => Ok(None),
        Err(fault) => Err(fault),
    }
}

/// Returns the first word of a text.
pub(crate) fn first_word(text: &[u8]) -> &[u8] {
    &text[..front_len::<WordByte>(text)]
}

/// Returns what follows the first word of a text, without the blanks around it.
pub(crate) fn after_word(text: &[u8]) -> &[u8] {
    trim::<Blank>(&text[front_len::<WordByte>(text)..])
}

// Returns the prefix length that the number after an address says, if it says one.
fn length_said(address: Ipv4Addr, number: Ipv4Addr) -> Result<Option<u8>, EntryFault> {
    let bits = u32::from(number);
    if bits != 0 && bits != u32::MAX {
        return Ok(length_of(number));
    }
    if u32::from(address) == 0 {
        return Err(EntryFault::Mask);
    }
    Ok(Some(32))
}

// Returns the prefix length of a mask or wildcard, or nothing if the number is neither.
fn length_of(number: Ipv4Addr) -> Option<u8> {
    if let Ok(prefix) = ipv4_mask_to_prefix(number) {
        return Some(prefix);
    }
    let turned = Ipv4Addr::from(u32::MAX - u32::from(number));
    ipv4_mask_to_prefix(turned).ok()
}

// Returns the network of this address and prefix length, unless that is greater than 32.
fn network_of(address: Ipv4Addr, prefix: u8) -> Option<Entry> {
    match Ipv4Network::new(address, prefix) {
        Ok(network) => Some(Entry::Network(IpNetwork::V4(network))),
        Err(_) => None,
    }
}

/// Bytes that are no blanks.
struct WordByte;

impl ByteKind for WordByte {
    fn has(byte: u8) -> bool {
        byte != b' ' && byte != b'\t'
    }
}
