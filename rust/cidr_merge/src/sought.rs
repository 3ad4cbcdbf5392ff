// Written by scripts/plain out of crates/cidr_merge/src/sought.rt

//! The networks that are sought in lists, each with the text that names it.

use fosibegan_core::plain_std::vec::Vec;
use fosibegan_core::plain_std::string::String;
use crate::findings::{either, tell_refused};
use crate::numbered_lines::{Line, NumberedLines};
use crate::texts::WholeLists;
use fosibegan_core::ipnetwork::{CidrFault, IpNetwork, cause};
use cidr_programs::lines::output::Output;
use cidr_programs::lists::{Blank, Entry, EntryFault, LineFault, encoding_of, has_host_bits, trim};
use fosibegan_core::plain_std::alloc::{AllocError, Global};
use fosibegan_core::plain_std::io::Write;

/// A network that is sought, and the text that names it.
pub(crate) struct Sought {
    /// The text.
    pub text: Vec<u8>,
    /// The network, without host bits.
    pub network: IpNetwork,
}

/// The networks that these words name.
pub(crate) fn sought_in_words(
    alloc: Global,
    words: &[String],
    networks: &[IpNetwork],
) -> Result<Vec<Sought>, AllocError> {
    let mut sought = Vec::new(alloc);
    for place in 0..words.len() {
        let text = words[place].as_bytes();
        add(alloc, text, networks[place], &mut sought)?;
    }
    Ok(sought)
}

/// Adds the networks that the lines of lists name.
pub(crate) fn add_lines(
    alloc: Global,
    lists: &WholeLists<'_>,
    sought: &mut Vec<Sought>,
) -> Result<(), AllocError> {
    let mut lines = NumberedLines::of(lists);
    while let Some(line) = lines.next() {
        add_line(alloc, line.text, sought)?;
    }
    Ok(())
}

// Adds the network that a line names, if it names one.
fn add_line(alloc: Global, line: &[u8], sought: &mut Vec<Sought>) -> Result<(), AllocError> {
    let text = trim::<Blank>(line);
    match network_in(text) {
        Ok(network) => add(alloc, text, network, sought),
        Err(_) => Ok(()),
    }
}

// Adds a network.
fn add(
    alloc: Global,
    text: &[u8],
    network: IpNetwork,
    sought: &mut Vec<Sought>,
) -> Result<(), AllocError> {
    let text = Vec::from_slice(alloc, text)?;
    sought.push(Sought { text, network })?;
    Ok(())
}

/// The network that a text names, which is an address or a network, or why none is sought for it: it
/// names none, or one with host bits.
pub(crate) fn network_in(text: &[u8]) -> Result<IpNetwork, EntryFault> {
    // Does nothing. The proof needs the law: what reading a text gives can be computed.
    match IpNetwork::read_bytes(text) {
        Ok(network) if has_host_bits(&Entry::Network(network)) => Err(EntryFault::HostBits),
        Ok(network) => Ok(network),
        Err(_) => Err(EntryFault::Address),
    }
}

/// Reports the lines of lists that have something other than an address or a network without host
/// bits, and returns whether there are any.
pub(crate) fn tell_others<E: Write>(lists: &WholeLists<'_>, errors: &mut Output<'_, E>) -> bool {
    let mut told = false;
    let mut lines = NumberedLines::of(lists);
    while let Some(line) = lines.next() {
        let more = tell_other(&line, errors);
        told = either(told, more);
    }
    told
}

// Reports a line if it has something other than that, and returns whether it has.
fn tell_other<E: Write>(line: &Line<'_>, errors: &mut Output<'_, E>) -> bool {
    let text = trim::<Blank>(line.text);
    match network_in(text) {
        Err(fault) if !text.is_empty() => {
            let fault = LineFault::Entry(other_cause(text, fault));
            tell_refused(line, fault, errors);
            true
        }
        _ => false,
    }
}

// Why a text is refused: its encoding, if it is not plain text, or what is wrong in it.
fn other_cause(text: &[u8], fault: EntryFault) -> EntryFault {
    match (encoding_of(text), cause(text)) {
        (Some(encoding), _) => EntryFault::Encoding(encoding),
        (None, Some(CidrFault::Format)) => EntryFault::Format,
        (None, Some(CidrFault::Prefix)) => EntryFault::Prefix,
        (None, _) => fault,
    }
}
