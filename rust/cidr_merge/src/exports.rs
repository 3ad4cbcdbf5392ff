// Written by scripts/plain out of crates/cidr_merge/src/exports.rt

//! Forms that other programs read, and the texts around the blocks in each.

use crate::families::looks_at;
use crate::set_names::SetNames;
use cidr_programs::lines::fault::RunFault;
use cidr_programs::lines::output::Output;
use cidr_programs::program::putting::put_all;
use fosibegan_core::plain_std::io::Write;

/// A form that other programs read.
#[derive(Clone, Copy, Debug, PartialEq, Eq)]
pub enum Export {
    /// Lines with an IPv4 address and its mask, or an IPv6 block.
    Netmask,
    /// Lines with an IPv4 address and its wildcard mask, or an IPv6 block.
    Wildcard,
    /// Comma-separated values with a header line.
    Csv,
    /// Input for `nft -f` that replaces the elements of the families' sets by these blocks.
    Nft,
    /// Input for `ipset restore` that does the same: what creates the sets comes first, and what
    /// replaces them last, so that nothing is changed if a set is another or too small.
    Ipset,
    /// A JSON array of strings.
    Json,
    /// Each address on a line.
    Addresses,
}

/// A family of addresses.
#[derive(Clone, Copy, Debug, PartialEq, Eq)]
pub enum Version {
    /// IPv4.
    V4,
    /// IPv6.
    V6,
}

/// Returns the suffix of the name of a family's set.
pub(crate) fn family_word(version: Version) -> &'static str {
    match version {
        Version::V4 => "_ipv4",
        Version::V6 => "_ipv6",
    }
}

// Returns the type of the elements of a family's set of nftables.
fn address_type(version: Version) -> &'static str {
    match version {
        Version::V4 => "ipv4_addr",
        Version::V6 => "ipv6_addr",
    }
}

// Returns the name of a family for ipset.
fn inet_word(version: Version) -> &'static str {
    match version {
        Version::V4 => "inet",
        Version::V6 => "inet6",
    }
}

/// A place around the blocks of an export.
#[derive(Clone, Copy, Debug, PartialEq, Eq)]
pub enum Frame {
    /// Before everything else.
    Head,
    /// Before the blocks of a family, even if there is none.
    FamilyHead(Version),
    /// Before the first block of a family, and whether blocks of the other family come before it.
    Opening(Version, bool),
    /// After the blocks of a family, even if there is none.
    FamilyFoot(Version),
    /// After everything else.
    Foot,
}

/// Writes the text of an export at this place around the blocks.
pub(crate) fn put_frame<W: Write>(
    export: Export,
    names: &SetNames<'_>,
    frame: Frame,
    output: &mut Output<'_, W>,
) -> Result<(), RunFault> {
    let (table, set) = (names.table, names.set);
    let table = table.as_str();
    let set = set.as_str();
    match (export, frame) {
        (Export::Csv, Frame::Head) => put_all(&["family,network,first,last\n"], output),
        (Export::Json, Frame::Head) => put_all(&["["], output),
        (Export::Json, Frame::Opening(_, true)) => put_all(&[",\n"], output),
        (Export::Json, Frame::Opening(_, false)) => put_all(&["\n"], output),
        (Export::Json, Frame::Foot) => put_all(&["\n]\n"], output),
        (Export::Nft, Frame::Head) => put_all(&["add table inet ", table, "\n"], output),
        (Export::Nft, Frame::FamilyHead(version)) => put_nft_set(names, version, output),
        (Export::Nft, Frame::Opening(version, _)) => {
            let word = family_word(version);
            put_all(
                &["add element inet ", table, " ", set, word, " {\n\t"],
                output,
            )
        }
        (Export::Ipset, Frame::Head) => put_ipset_head(names, output),
        (Export::Ipset, Frame::FamilyHead(version)) => put_flush(names, version, output),
        (Export::Ipset, Frame::Foot) => put_ipset_foot(names, output),
        _ => Ok(()),
    }
}

// Writes the lines that create a family's set of nftables, unless it exists, and empty it.
fn put_nft_set<W: Write>(
    names: &SetNames<'_>,
    version: Version,
    output: &mut Output<'_, W>,
) -> Result<(), RunFault> {
    if !looks_at(names.only, version) {
        return Ok(());
    }
    let (table, set) = (names.table, names.set);
    let (table, set) = (table.as_str(), set.as_str());
    let (word, addresses) = (family_word(version), address_type(version));
    put_all(
        &[
            "add set inet ",
            table,
            " ",
            set,
            word,
            " { type ",
            addresses,
            "; flags interval; }\nflush set inet ",
            table,
            " ",
            set,
            word,
            "\n",
        ],
        output,
    )
}

// Writes the line that empties a family's new set of ipset.
fn put_flush<W: Write>(
    names: &SetNames<'_>,
    version: Version,
    output: &mut Output<'_, W>,
) -> Result<(), RunFault> {
    if !looks_at(names.only, version) {
        return Ok(());
    }
    let set = names.set;
    put_all(
        &["flush ", set.as_str(), family_word(version), "_new\n"],
        output,
    )
}

// Writes the lines that create the sets of ipset and new ones, unless they exist.
fn put_ipset_head<W: Write>(
    names: &SetNames<'_>,
    output: &mut Output<'_, W>,
) -> Result<(), RunFault> {
    let set = names.set;
    let set = set.as_str();
    match names.only {
        Some(version) => put_created(
            set,
            family_word(version),
            inet_word(version),
            names.limit,
            output,
        ),
        None => {
            let limit = names.limit;
            put_all(
                &[
                    "create ",
                    set,
                    "_ipv4 hash:net family inet maxelem ",
                    limit,
                    " -exist\ncreate ",
                    set,
                    "_ipv4_new hash:net family inet maxelem ",
                    limit,
                    " -exist\ncreate ",
                    set,
                    "_ipv6 hash:net family inet6 maxelem ",
                    limit,
                    " -exist\ncreate ",
                    set,
                    "_ipv6_new hash:net family inet6 maxelem ",
                    limit,
                    " -exist\n",
                ],
                output,
            )
        }
    }
}

// Writes the lines that create a set of ipset and a new one, from the beginning of their names, the
// suffix and the family.
fn put_created<'a, W: Write>(
    set: &'a str,
    word: &'a str,
    inet: &'a str,
    limit: &'a str,
    output: &mut Output<'_, W>,
) -> Result<(), RunFault> {
    put_all(
        &[
            "create ",
            set,
            word,
            " hash:net family ",
            inet,
            " maxelem ",
            limit,
            " -exist\ncreate ",
            set,
            word,
            "_new hash:net family ",
            inet,
            " maxelem ",
            limit,
            " -exist\n",
        ],
        output,
    )
}

// Writes the lines that put the new sets of ipset in the place of the old ones, and destroy these.
fn put_ipset_foot<W: Write>(
    names: &SetNames<'_>,
    output: &mut Output<'_, W>,
) -> Result<(), RunFault> {
    let set = names.set;
    let set = set.as_str();
    match names.only {
        Some(version) => {
            let word = family_word(version);
            put_all(
                &[
                    "swap ",
                    set,
                    word,
                    "_new ",
                    set,
                    word,
                    "\ndestroy ",
                    set,
                    word,
                    "_new\n",
                ],
                output,
            )
        }
        None => {
            put_all(
                &[
                    "swap ",
                    set,
                    "_ipv6_new ",
                    set,
                    "_ipv6\nswap ",
                    set,
                    "_ipv4_new ",
                    set,
                    "_ipv4\ndestroy ",
                    set,
                    "_ipv4_new\ndestroy ",
                    set,
                    "_ipv6_new\n",
                ],
                output,
            )
        }
    }
}

/// Returns the text between two blocks of a family, and the one after its last block.
pub(crate) fn around_blocks(export: Export) -> (&'static str, &'static str) {
    match export {
        Export::Nft => (",\n\t", "\n}\n"),
        Export::Json => (",\n", ""),
        _ => ("", ""),
    }
}
