// Written by scripts/plain out of crates/cidr_join/src/log.rt

//! Joins the lines of a log to a list.

use crate::join::Join;
use crate::printing::print_line;
use cidr_programs::lines::line_end::LineEnd;
use cidr_programs::lines::output::Output;
use cidr_programs::lines::watched::Watched;
use cidr_programs::log_programs::log_stats::LogStats;
use cidr_programs::program::log_fault::LogFault;
use cidr_programs::program::log_reader::{LogReader, NextLogLine};
use fosibegan_core::plain_std::io::{Read, Write};

/// Writes each line of a log with what is found for its address or network. The counts in `seen`
/// start anew.
///
/// What is printed for the lines that a read completes is written before the next read. After a
/// failed read nothing is written. If lines that are too long end the run, one does so even before
/// its end was read.
pub(crate) fn join_log<R: Read, W: Write>(
    join: &Join<'_>,
    buffer: &mut [u8],
    reader: &mut Watched<R>,
    output: &mut Output<'_, W>,
    seen: &mut LogStats,
) -> Result<(), LogFault> {
    *seen = LogStats::new();
    let stops = join.bad.is_stopped();
    let mut log = LogReader::new(buffer, stops);
    'lines: loop {
        match log.next(reader, output) {
            Ok(NextLogLine::Line(end)) => {
                let line = log.line();
                let whole = log.whole_line();
                if let Err(fault) = join_line(join, line, whole, end, output, seen) {
                    return Err(fault);
                }
            }
            Ok(NextLogLine::TooLong) => {
                if stops {
                    return Err(LogFault::Length);
                }
                seen.add_long();
            }
            Ok(NextLogLine::End) => return Ok(()),
            Err(fault) => return Err(fault),
        }
    }
}

// Writes a line within the limit with what is found for its address or network, and counts it.
// `whole` is the line with its end.
fn join_line<W: Write>(
    join: &Join<'_>,
    line: &[u8],
    whole: &[u8],
    end: LineEnd,
    output: &mut Output<'_, W>,
    seen: &mut LogStats,
) -> Result<(), LogFault> {
    let asked = join.network_in(line, seen.lines);
    if join.refuses(asked) {
        return Err(LogFault::Address);
    }
    seen.add(asked.is_some());
    if join.leaves_out(asked) {
        return Ok(());
    }
    let found = join.find(asked);
    match print_line(join, &found, line, whole, end, output) {
        Ok(()) => Ok(()),
        Err(_) => Err(LogFault::Write),
    }
}
