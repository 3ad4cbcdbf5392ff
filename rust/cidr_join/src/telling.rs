// Written by scripts/plain out of crates/cidr_join/src/telling.rt

//! Messages on the error writer. If writing one fails, nothing else changes.

use crate::help::PROGRAM;
use crate::join::Join;
use crate::line::{Cause, entry_text, pair_in};
use crate::list::TakeFault;
use crate::routes::RouteFault;
use fosibegan_core::ipnetwork::IpNetwork;
use cidr_programs::lines::output::Output;
use cidr_programs::lists::{BytesFault, EntryFault, Excerpt, LineFault, meant};
use cidr_programs::log_programs::log_stats::LogStats;
use cidr_programs::log_programs::telling::tell_lacking;
use cidr_programs::program::escapes::tell_escaped;
use cidr_programs::program::log_fault::tell_fault_of;
use cidr_programs::program::messages::{tell, tell_head, tell_number, tell_of};
use fosibegan_core::plain_std::io::Write;

/// Reports why the list with this name was not read.
pub(crate) fn tell_bytes_fault<E: Write>(name: &str, fault: BytesFault, errors: &mut Output<'_, E>) {
    match fault {
        BytesFault::Open(cause) => tell_fault_of(PROGRAM, name, cause.text(), errors),
        BytesFault::Read => tell_fault_of(PROGRAM, name, ": cannot read\n", errors),
        BytesFault::Length => {
            tell_fault_of(PROGRAM, name, ": more than 1,073,741,824 bytes\n", errors)
        }
        BytesFault::OutOfMemory => tell_of(PROGRAM, ": out of memory\n", errors),
    }
}

/// Reports that no line of the log with this name has an address where one is looked for, if it has
/// lines and that is so.
pub(crate) fn tell_unaddressed<E: Write>(
    join: &Join<'_>,
    name: &str,
    seen: &LogStats,
    errors: &mut Output<'_, E>,
) {
    let (lines, is_addressed) = (seen.lines, seen.is_addressed);
    tell_lacking(PROGRAM, &join.area, name, lines, is_addressed, errors);
}

/// Reports why the list with this name was not taken to its end.
pub(crate) fn tell_take_fault<E: Write>(
    name: &str,
    fault: TakeFault<'_>,
    errors: &mut Output<'_, E>,
) {
    match fault.fault {
        RouteFault::OutOfMemory => tell_of(PROGRAM, ": out of memory\n", errors),
        RouteFault::Refused(cause) => { tell_refused(name, fault.lines, fault.line, cause, errors) }
    }
}

/// Reports that a line of the list with this name, after this many others, is refused, and why, the
/// beginning of its text, and what would do: `--ranges`, or another text in place of its network.
pub(crate) fn tell_refused<E: Write>(
    name: &str,
    lines: usize,
    line: &[u8],
    cause: Cause,
    errors: &mut Output<'_, E>,
) {
    tell_head(PROGRAM, name, errors);
    tell(":", errors);
    tell_number((lines as u64).saturating_add(1), errors);
    tell(": refused ", errors);
    tell(cause.text(), errors);
    if would_be_range(line, cause) {
        tell(": with --ranges, FIRST LAST is a range", errors);
    }
    tell_text(&excerpt_of(line, cause), errors);
    tell_meant(meant_in(line, cause), errors);
    tell("\n", errors);
}

// Returns the beginning of a line that is refused for this: nothing of one that is too long.
fn excerpt_of(line: &[u8], cause: Cause) -> Excerpt {
    match cause {
        Cause::Length => Excerpt::empty(),
        _ => Excerpt::of(line.strip_suffix(b"\r").unwrap_or(line)),
    }
}

// Whether a line that is refused for this begins with two addresses that are probably a range.
fn would_be_range(line: &[u8], cause: Cause) -> bool {
    cause == Cause::Second && matches!(pair_in(line), Some(pair) if pair.is_likely_range())
}

// Returns the network that is probably meant in a line that is refused for this.
fn meant_in(line: &[u8], cause: Cause) -> Option<IpNetwork> {
    let fault = match cause {
        Cause::Entry(fault) => fault,
        Cause::HostBits => EntryFault::HostBits,
        Cause::Second if !would_be_range(line, cause) => return masked_in(line),
        _ => return None,
    };
    meant(LineFault::Entry(fault), entry_text(line))
}

// Returns the network of the address and the mask or wildcard after it that a line begins with.
fn masked_in(line: &[u8]) -> Option<IpNetwork> {
    match pair_in(line) {
        Some(pair) => pair.masked(),
        None => None,
    }
}

// Reports the beginning of a text, unless the text is empty.
fn tell_text<E: Write>(text: &Excerpt, errors: &mut Output<'_, E>) {
    if text.bytes().is_empty() {
        return;
    }
    tell(": ", errors);
    tell_escaped(text.bytes(), errors);
    if text.is_cut() {
        tell("..", errors);
    }
}

// Reports the network that is probably meant.
fn tell_meant<E: Write>(network: Option<IpNetwork>, errors: &mut Output<'_, E>) {
    if let Some(network) = network {
        tell(" (write ", errors);
        tell(network.canonical().as_str(), errors);
        tell(")", errors);
    }
}
