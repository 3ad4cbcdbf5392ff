// Written by scripts/plain out of crates/cidr_info/src/said.rt

//! A text that is expected to name a network.

use fosibegan_core::ipnetwork::IpNetwork;

/// A word of the command line or the text of a line, and the network that it names, if it names
/// one.
#[derive(Debug)]
pub struct Said<'a> {
    // The number of its line, counted from 1, or 0 for a word of the command line.
    line: u64,
    text: &'a [u8],
    network: Option<IpNetwork>,
}

impl<'a> Said<'a> {
    /// Creates a `Said` from the number of its line, which is 0 for a word of the command line, and
    /// its text.
    pub(crate) fn new(line: u64, text: &'a [u8]) -> Said<'a> {
        Said {
            line,
            text,
            network: network_in(text),
        }
    }

    /// Returns the number of its line, or 0 for a word of the command line.
    pub(crate) fn line(&self) -> u64 {
        self.line
    }

    /// Returns the text.
    pub(crate) fn text(&self) -> &'a [u8] {
        self.text
    }

    /// Returns the network that the text names, if it names one.
    pub(crate) fn network(&self) -> Option<IpNetwork> {
        self.network
    }
}

/// Returns the network that a text names, if it names one.
pub(crate) fn network_in(text: &[u8]) -> Option<IpNetwork> {
    // This call does nothing: the proof of this body needs its law.
    IpNetwork::read_bytes(text).ok()
}
