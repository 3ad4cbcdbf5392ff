// Written by scripts/plain out of crates/line_addresses/src/run.rt

//! The address of a run.

use crate::line_addresses::byte_kind::{is_address_byte, is_run_byte};
use crate::line_addresses::found::Found;
use crate::line_addresses::named::behind_word;
use crate::line_addresses::port::{digits_at_end, has_dot, is_port};
use fosibegan_core::ipnetwork_addr::IpAddr;

/// Returns the index after the run bytes that begin at `start`.
#[inline(always)]
pub(crate) fn run_end(line: &[u8], start: usize) -> usize {
    for at in start..line.len() {
        if !is_run_byte(line[at]) {
            return at;
        }
    }
    line.len()
}

/// Returns the address of a run, and the position of its text in the run.
#[inline(always)]
pub(crate) fn address_in(run: &[u8]) -> Option<Found> {
    if run.is_empty() {
        return None;
    }
    if !is_address_byte(run[run.len() - 1]) {
        return None;
    }
    address_if_marked(run)
}

// Returns the address of a run, and the position of its text in the run, whatever byte ends it. It
// is not inlined, since it would take registers from the loop over the bytes of a line.
#[inline(never)]
fn address_if_marked(run: &[u8]) -> Option<Found> {
    if !has_mark(run) {
        return None;
    }
    address_within(run)
}

// Returns the same as `address_if_marked`, without a look at the marks first.
#[inline(never)]
fn address_within(run: &[u8]) -> Option<Found> {
    if let Some((address, size)) = begun_by(run) {
        return Some(Found {
            address,
            start: 0,
            end: size,
            next: run.len(),
        });
    }
    let start = behind_word(run);
    if start == run.len() {
        return None;
    }
    match begun_by(&run[start..]) {
        Some((address, size)) => Some(Found {
            address,
            start,
            end: start + size,
            next: run.len(),
        }),
        None => None,
    }
}

// Returns the address that begins a run, and the length of its text.
fn begun_by(run: &[u8]) -> Option<(IpAddr, usize)> {
    if run.is_empty() {
        return None;
    }
    if !is_address_byte(run[0]) {
        return None;
    }
    if let Some(address) = address_of(run) {
        return Some((address, run.len()));
    }
    if !ends_with_mark(run) {
        return before_port(run);
    }
    let end = run.len() - 1;
    if let Some(address) = address_of(&run[..end]) {
        return Some((address, end));
    }
    before_port(&run[..end])
}

/// Returns the address that `IpAddr::read_bytes` reads from a text, or `None` if it refuses it.
///
/// ```
/// # use cidr_programs::in_examples::*;
/// # ended(|| {
/// assert_eq!(address_of(b"10.1.1.1"), Some("10.1.1.1".parse()?));
/// assert_eq!(address_of(b"10.1.1.1."), None);
/// # Ok(())
/// # });
/// ```
#[inline(always)]
pub fn address_of(text: &[u8]) -> Option<IpAddr> {
    match IpAddr::read_bytes(text) {
        Ok(address) => Some(address),
        Err(_) => None,
    }
}

// Returns whether a text has a `.` or a `:`, as each address text has.
fn has_mark(text: &[u8]) -> bool {
    text.iter().any(|byte| *byte == b'.' || *byte == b':')
}

/// Returns whether a text ends with a `.` or a `:`.
pub(crate) fn ends_with_mark(text: &[u8]) -> bool {
    if text.is_empty() {
        return false;
    }
    let last = text[text.len() - 1];
    last == b'.' || last == b':'
}

// Returns the address before a port that ends a run, and the length of its text, if it has a `.`.
fn before_port(run: &[u8]) -> Option<(IpAddr, usize)> {
    let size = digits_at_end(run);
    if !is_port(size, run) {
        return None;
    }
    let end = run.len() - size - 1;
    if !has_dot(&run[..end]) {
        return None;
    }
    match address_of(&run[..end]) {
        Some(address) => Some((address, end)),
        None => None,
    }
}
