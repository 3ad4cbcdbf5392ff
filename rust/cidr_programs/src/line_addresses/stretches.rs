// Written by scripts/plain out of crates/line_addresses/src/stretches.rt

//! The next network or address of a line.

use crate::line_addresses::byte_kind::is_run_byte;
use crate::line_addresses::found::{Found, next_address};
use crate::line_addresses::network::network_in;
use crate::line_addresses::run::{address_in, run_end};

/// Returns the first network or address of a line from the index `from` on, or `None` if there is
/// none. `from` must be at most the length of the line. A network is returned as its address, host
/// bits kept, and the position of its text. What precedes `from` is ignored: the rest is read as a
/// line.
pub(crate) fn next_network(line: &[u8], from: usize) -> Option<Found> {
    let mut at = from;
    'stretches: while at < line.len() {
        if line[at] == b'/' {
            // No network begins with `/`, so the rest of the stretch has only addresses.
            let run = run_end(line, at + 1);
            if let Some(found) = address_in(&line[at + 1..run]) {
                return Some(Found {
                    address: found.address,
                    start: at + 1 + found.start,
                    end: at + 1 + found.end,
                    next: run,
                });
            }
            at = run;
            continue 'stretches;
        }
        let end = stretch_end(line, at);
        if end == at {
            at += 1;
            continue 'stretches;
        }
        if let Some(found) = first_of(&line[at..end]) {
            return Some(Found {
                address: found.address,
                start: at + found.start,
                end: at + found.end,
                next: at + found.next,
            });
        }
        at = end;
    }
    None
}

/// Returns the first address of a line from the index `from` on, or, if `networks`, the first
/// network or address; `None` if there is none. `from` must be at most the length of the line.
#[inline(always)]
#[doc(hidden)]
pub fn next_found(line: &[u8], from: usize, networks: bool) -> Option<Found> {
    if networks {
        next_network(line, from)
    } else {
        next_address(line, from)
    }
}

// Returns the first network or address of a stretch.
fn first_of(stretch: &[u8]) -> Option<Found> {
    match network_in(stretch) {
        Some(found) => Some(Found {
            address: found.address,
            start: found.start,
            end: found.end,
            next: stretch.len(),
        }),
        None => next_address(stretch, 0),
    }
}

// Returns the index after the stretch bytes that begin at `start`.
fn stretch_end(line: &[u8], start: usize) -> usize {
    for at in start..line.len() {
        if !is_stretch_byte(line[at]) {
            return at;
        }
    }
    line.len()
}

// Returns whether a byte may occur in a stretch: a run byte or a `/`.
fn is_stretch_byte(byte: u8) -> bool {
    is_run_byte(byte) || byte == b'/'
}
