// Written by scripts/plain out of crates/lists/src/csv.rt

//! Reads lines of comma-separated values.

use crate::lists::cutting::{after, before};
use crate::lists::entry::{Entry, EntryFault};
use crate::lists::forms::of_another_form;
use fosibegan_core::plain_std::arrayvec::ArrayString;
use fosibegan_core::ipnetwork::{Address, IpNetwork, Network};
use fosibegan_core::ipnetwork_addr::decimal::push_decimal;

/// The greatest length of a line, in bytes.
const LINE_CAPACITY: usize = 128;

/// A line.
type Line = ArrayString<LINE_CAPACITY>;

/// Reads a line.
pub(crate) fn read_csv(line: &[u8]) -> Result<Option<Entry>, EntryFault> {
    // This call does nothing: the proof of this body needs its law, since another network of the
    // same text would have another line.
    if line == b"family,network,first,last".as_slice() {
        return Ok(None);
    }
    match IpNetwork::read_bytes(before(after(line, b','), b',')) {
        Ok(network) => read_line_of(line, &network),
        Err(_) => Err(of_another_form(line)),
    }
}

// Reads a line whose second field names this network.
fn read_line_of(line: &[u8], network: &IpNetwork) -> Result<Option<Entry>, EntryFault> {
    if is_line_of(line, *network) {
        Ok(Some(Entry::Network(*network)))
    } else {
        Err(of_another_form(line))
    }
}

// Whether a line is the one that is printed for a network.
fn is_line_of(line: &[u8], network: IpNetwork) -> bool {
    let wanted = csv_line(network);
    line == wanted.as_bytes()
}

// Returns the line that is printed for a network.
fn csv_line(network: IpNetwork) -> Line {
    match network {
        IpNetwork::V4(network) => line_of("IPv4,", network),
        IpNetwork::V6(network) => line_of("IPv6,", network),
    }
}

// Returns the line of a network, from its beginning.
fn line_of<A: Address>(family: &str, network: Network<A>) -> Line {
    let mut text = ArrayString::new();
    text.push_str(family);
    push_network(&mut text, network);
    text.push(',');
    push_address(&mut text, network.network());
    text.push(',');
    push_address(&mut text, network.broadcast());
    text
}

// Appends the canonical text of a network to a text.
fn push_network<A: Address>(text: &mut Line, network: Network<A>) {
    push_address(text, network.ip());
    text.push('/');
    push_decimal(text, network.prefix());
}

// Appends the canonical text of an address to a text.
fn push_address<A: Address>(text: &mut Line, address: A) {
    text.push_text(&address.canonical());
}
