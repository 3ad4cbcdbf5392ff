// Written by scripts/plain out of crates/cidr_join/src/tally_log.rt

//! Counts what is found for the lines of a log.

use fosibegan_core::plain_std::vec::Vec;
use crate::counts::Counts;
use crate::found::Found;
use crate::join::Join;
use crate::value_ids::ValueIds;
use fosibegan_core::ipnetwork::IpNetwork;
use cidr_programs::lines::output::Output;
use cidr_programs::lines::watched::Watched;
use cidr_programs::log_programs::log_stats::LogStats;
use cidr_programs::program::log_fault::LogFault;
use cidr_programs::program::log_reader::{LogReader, NextLogLine};
use fosibegan_core::plain_std::alloc::{AllocError, Global};
use fosibegan_core::plain_std::io::Read;

/// Counts the lines of a log, and what is found for their addresses or networks. Only memory is
/// written to, so `LogFault::Write` says that memory ran out.
///
/// A line that is too long counts as one without an address. If such lines end the run, one does so
/// even before its end was read. The counts in `seen` start anew.
pub(crate) fn tally_log<R: Read>(
    alloc: Global,
    join: &Join<'_>,
    numbered: &ValueIds<'_>,
    buffer: &mut [u8],
    reader: &mut Watched<R>,
    counts: &mut Counts,
    seen: &mut LogStats,
) -> Result<(), LogFault> {
    // Nothing is put into it, so nothing is written before a read.
    let mut slice = [0; 1];
    let mut nothing = Output::new(Vec::new(alloc), &mut slice);
    *seen = LogStats::new();
    let stops = join.bad.is_stopped();
    let mut log = LogReader::new(buffer, stops);
    'lines: loop {
        match log.next(reader, &mut nothing) {
            Ok(NextLogLine::Line(_)) => {
                let line = log.line();
                if let Err(fault) = count_line(alloc, join, numbered, line, counts, seen) {
                    return Err(fault);
                }
            }
            Ok(NextLogLine::TooLong) => {
                if stops {
                    return Err(LogFault::Length);
                }
                seen.add_long();
                if let Err(_) = count_asked(alloc, join, numbered, None, counts) {
                    return Err(LogFault::Write);
                }
            }
            Ok(NextLogLine::End) => return Ok(()),
            Err(fault) => return Err(fault),
        }
    }
}

// Counts a line within the limit, and what is found for its network.
fn count_line(
    alloc: Global,
    join: &Join<'_>,
    numbered: &ValueIds<'_>,
    line: &[u8],
    counts: &mut Counts,
    seen: &mut LogStats,
) -> Result<(), LogFault> {
    let asked = join.network_in(line, seen.lines);
    if join.refuses(asked) {
        return Err(LogFault::Address);
    }
    seen.add(asked.is_some());
    match count_asked(alloc, join, numbered, asked, counts) {
        Ok(()) => Ok(()),
        Err(_) => Err(LogFault::Write),
    }
}

// Counts what is found for a network, or for a line without one, unless such lines are left out.
fn count_asked(
    alloc: Global,
    join: &Join<'_>,
    numbered: &ValueIds<'_>,
    asked: Option<IpNetwork>,
    counts: &mut Counts,
) -> Result<(), AllocError> {
    if is_left_out(join, asked.is_some()) {
        return Ok(());
    }
    if let Some(number) = numbered.number_of(asked, join.mapped) {
        counts.count_number(number);
        return Ok(());
    }
    match join.find(asked) {
        Found::Network(network) => {
            counts.count_text(alloc, network.canonical().as_bytes())
        }
        Found::Value(value) => counts.count_text(alloc, value.bytes()),
        Found::Nothing => counts.count_text(alloc, b"-"),
    }
}

// Returns whether a line is left out, by whether it has an address.
#[inline(always)]
fn is_left_out(join: &Join<'_>, is_addressed: bool) -> bool {
    !is_addressed && join.bad.is_dropped()
}
