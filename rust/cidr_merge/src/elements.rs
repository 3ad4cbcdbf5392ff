// Written by scripts/plain out of crates/cidr_merge/src/elements.rt

//! The text of a block in an export.

use crate::addresses::print_addresses;
use crate::cutting::put_network;
use crate::exports::{Export, Version, family_word};
use crate::set_names::{Name, SetNames};
use fosibegan_core::plain_std::arrayvec::ArrayString;
use fosibegan_core::ipnetwork::{Address, Network};
use fosibegan_core::ipnetwork_addr::decimal::push_decimal;
use cidr_programs::lines::fault::RunFault;
use cidr_programs::lines::output::Output;
use cidr_programs::program::putting::put_all;
use fosibegan_core::plain_std::io::Write;

/// The greatest length of a line of comma-separated values, in bytes.
const LINE_CAPACITY: usize = 129;

/// A line of comma-separated values.
type Line = ArrayString<LINE_CAPACITY>;

/// Writes a block.
pub(crate) fn print_element<A: Address, W: Write>(
    export: Export,
    names: &SetNames<'_>,
    version: Version,
    block: Network<A>,
    output: &mut Output<'_, W>,
) -> Result<(), RunFault> {
    match export {
        Export::Netmask => put_with_mask(names, version, block, block.mask(), output),
        Export::Wildcard => put_with_mask(names, version, block, wildcard(block), output),
        Export::Csv => output.put(csv_line(version, block).as_bytes()),
        Export::Nft => output.put(block.canonical().as_bytes()),
        Export::Ipset => put_ipset(names.set, version, block, output),
        Export::Json => put_all(&["\"", block.canonical().as_str(), "\""], output),
        Export::Addresses => print_addresses(names, block.iter(), output),
    }
}

// Returns the wildcard mask of a block: the complement of its mask.
fn wildcard<A: Address>(block: Network<A>) -> A {
    A::mask(0).greatest(block.prefix())
}

// Writes a line with the address of an IPv4 block and this mask, or with the text of an IPv6 block.
fn put_with_mask<A: Address, W: Write>(
    names: &SetNames<'_>,
    version: Version,
    block: Network<A>,
    mask: A,
    output: &mut Output<'_, W>,
) -> Result<(), RunFault> {
    match version {
        Version::V4 => put_all(
            &[
                names.before,
                block.ip().canonical().as_str(),
                " ",
                mask.canonical().as_str(),
                names.after,
                "\n",
            ],
            output,
        ),
        Version::V6 => put_network(names, block, output),
    }
}

// Returns the line of comma-separated values for a block.
fn csv_line<A: Address>(version: Version, block: Network<A>) -> Line {
    let mut text = ArrayString::new();
    text.push_str(family_name(version));
    text.push(',');
    push_network(&mut text, block);
    text.push(',');
    push_address(&mut text, block.network());
    text.push(',');
    push_address(&mut text, block.broadcast());
    text.push('\n');
    text
}

// Writes the command that adds a block to the new set of ipset. Since a set cannot have the block
// of all addresses, its two halves are added instead.
fn put_ipset<A: Address, W: Write>(
    set: Name,
    version: Version,
    block: Network<A>,
    output: &mut Output<'_, W>,
) -> Result<(), RunFault> {
    if block.prefix() == 0 {
        return put_halves(set, version, output);
    }
    put_all(
        &[
            "add ",
            set.as_str(),
            family_word(version),
            "_new ",
            block.canonical().as_str(),
            "\n",
        ],
        output,
    )
}

// Writes the commands that add all addresses to the new set of ipset.
fn put_halves<W: Write>(
    set: Name,
    version: Version,
    output: &mut Output<'_, W>,
) -> Result<(), RunFault> {
    let set = set.as_str();
    let word = family_word(version);
    let (first, second) = half_blocks(version);
    put_all(
        &[
            "add ", set, word, "_new ", first, "\nadd ", set, word, "_new ", second, "\n",
        ],
        output,
    )
}

// Returns the name of a family.
fn family_name(version: Version) -> &'static str {
    match version {
        Version::V4 => "IPv4",
        Version::V6 => "IPv6",
    }
}

// Returns the two halves of the block of all addresses.
fn half_blocks(version: Version) -> (&'static str, &'static str) {
    match version {
        Version::V4 => ("0.0.0.0/1", "128.0.0.0/1"),
        Version::V6 => ("::/1", "8000::/1"),
    }
}

// Appends the canonical text of an address to a text.
fn push_address<A: Address>(text: &mut Line, address: A) {
    text.push_text(&address.canonical());
}

// Appends the canonical text of a block to a text.
fn push_network<A: Address>(text: &mut Line, block: Network<A>) {
    push_address(text, block.ip());
    text.push('/');
    push_decimal(text, block.prefix());
}
