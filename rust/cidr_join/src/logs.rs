// Written by scripts/plain out of crates/cidr_join/src/logs.rt

//! Joins the logs of a run in turn.

use fosibegan_core::plain_std::string::String;
use crate::help::PROGRAM;
use crate::join::Join;
use crate::log::join_log;
use crate::missing::{either, status};
use crate::telling::tell_unaddressed;
use cidr_programs::lines::output::Output;
use cidr_programs::lists::{OpenLists, open_input};
use cidr_programs::log_programs::log_stats::LogStats;
use cidr_programs::log_programs::telling::{is_missed, tell_closed, tell_seen};
use cidr_programs::program::ending::{FAILED, end};
use cidr_programs::program::log_fault::stop;
use fosibegan_core::plain_std::io::Write;

/// Joins the logs with these names in turn, and returns the exit status. If one that was opened is
/// not joined to its end, the cause is reported, and no other is read. The reports about the lines
/// of each log are written after it.
pub(crate) fn join_logs<L: OpenLists, W: Write, E: Write>(
    join: &Join<'_>,
    lists: &L,
    files: &[String],
    buffer: &mut [u8],
    output: &mut Output<'_, W>,
    errors: &mut Output<'_, E>,
) -> u8 {
    let mut missed = false;
    for file in files {
        let name = file.as_str();
        let Some(more) = join_one(join, lists, name, buffer, output, errors) else {
            return FAILED;
        };
        missed = either(missed, more);
    }
    let written = output.finish();
    end(PROGRAM, written, status(missed), errors)
}

// Opens the log with this name and joins its lines, and returns whether it could not be opened or
// a line is missed. If it was opened and is not joined to its end, the cause is reported, and
// `None` is returned.
fn join_one<L: OpenLists, W: Write, E: Write>(
    join: &Join<'_>,
    lists: &L,
    name: &str,
    buffer: &mut [u8],
    output: &mut Output<'_, W>,
    errors: &mut Output<'_, E>,
) -> Option<bool> {
    let mut log = match open_input(lists, name) {
        Ok(log) => log,
        Err(cause) => {
            tell_closed(PROGRAM, name, cause, errors);
            return Some(true);
        }
    };
    let mut seen = LogStats::new();
    let end = join_log(join, buffer, &mut log, output, &mut seen);
    lists.close(name, log);
    tell_seen(PROGRAM, name, join.bad, &seen, errors);
    match end {
        Ok(()) => {
            tell_unaddressed(join, name, &seen, errors);
            Some(is_missed(join.bad, &seen))
        }
        Err(fault) => {
            stop(PROGRAM, name, fault, seen.lines, output, errors);
            None
        }
    }
}
