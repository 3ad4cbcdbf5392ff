// Written by scripts/plain out of crates/cidr_join/src/tally_logs.rt

//! Counts what is found for the lines of the logs of a run, and prints the counts.

use fosibegan_core::plain_std::string::String;
use crate::counts::Counts;
use crate::help::PROGRAM;
use crate::join::Join;
use crate::missing::{either, status};
use crate::tally::Row;
use crate::tally_log::tally_log;
use crate::telling::tell_unaddressed;
use crate::value_ids::ValueIds;
use cidr_programs::lines::fault::RunFault;
use cidr_programs::lines::output::Output;
use cidr_programs::lists::{OpenLists, open_list};
use cidr_programs::log_programs::log_stats::LogStats;
use cidr_programs::log_programs::telling::{is_missed, tell_closed, tell_seen};
use cidr_programs::log_programs::without_address::WithoutAddress;
use cidr_programs::program::ending::{FAILED, end};
use cidr_programs::program::log_fault::{LogFault, tell_log_fault};
use cidr_programs::program::memory::refuse_memory;
use cidr_programs::program::messages::{number_text, tell_of};
use cidr_programs::program::putting::put_both;
use fosibegan_core::plain_std::alloc::Global;
use fosibegan_core::plain_std::io::Write;

/// Counts what is found for the lines of the logs with these names, prints the counts, and returns
/// the exit status.
pub(crate) fn tally_logs<L: OpenLists, W: Write, E: Write>(
    alloc: Global,
    join: &Join<'_>,
    lists: &L,
    buffer: &mut [u8],
    files: &[String],
    output: &mut Output<'_, W>,
    errors: &mut Output<'_, E>,
) -> u8 {
    let Ok(numbered) = ValueIds::of(alloc, &join.answers) else {
        return refuse_memory(PROGRAM, errors);
    };
    let founds = numbered.founds();
    let Ok(mut counts) = Counts::new(alloc, founds.len()) else {
        return refuse_memory(PROGRAM, errors);
    };
    let Some(missed) = tally_each(
        alloc,
        join,
        &numbered,
        lists,
        files,
        buffer,
        &mut counts,
        errors,
    ) else {
        return FAILED;
    };
    let Ok(rows) = counts.into_rows(alloc, founds, join.zeros) else {
        return refuse_memory(PROGRAM, errors);
    };
    let written = write_rows(rows.as_slice(), output);
    end(PROGRAM, written, status(missed), errors)
}

// Counts the lines of the logs with these names, and returns whether one could not be opened or a
// line is missed. If one that was opened is not read to its end, the cause is reported and `None`
// is returned. The reports about the lines of each log are written after it.
fn tally_each<L: OpenLists, E: Write>(
    alloc: Global,
    join: &Join<'_>,
    numbered: &ValueIds<'_>,
    lists: &L,
    files: &[String],
    buffer: &mut [u8],
    counts: &mut Counts,
    errors: &mut Output<'_, E>,
) -> Option<bool> {
    let mut missed = false;
    for file in files {
        let name = file.as_str();
        let Some(more) = tally_one(alloc, join, numbered, lists, name, buffer, counts, errors)
        else {
            return None;
        };
        missed = either(missed, more);
    }
    Some(missed)
}

// Opens the log with this name and counts its lines, and returns whether it could not be opened or
// a line is missed, as `tally_each` does.
fn tally_one<L: OpenLists, E: Write>(
    alloc: Global,
    join: &Join<'_>,
    numbered: &ValueIds<'_>,
    lists: &L,
    name: &str,
    buffer: &mut [u8],
    counts: &mut Counts,
    errors: &mut Output<'_, E>,
) -> Option<bool> {
    let mut log = match open_list(lists, name) {
        Ok(log) => log,
        Err(cause) => {
            tell_closed(PROGRAM, name, cause, errors);
            return Some(true);
        }
    };
    let mut seen = LogStats::new();
    let end = tally_log(alloc, join, numbered, buffer, &mut log, counts, &mut seen);
    lists.close(name, log);
    match end {
        Err(fault) => {
            tell_stop(join.bad, name, fault, &seen, errors);
            None
        }
        Ok(()) => {
            tell_seen(PROGRAM, name, join.bad, &seen, errors);
            tell_unaddressed(join, name, &seen, errors);
            Some(is_missed(join.bad, &seen))
        }
    }
}

// Reports why a log was not counted to its end, after the reports about the lines that were.
fn tell_stop<E: Write>(
    bad: WithoutAddress,
    name: &str,
    fault: LogFault,
    seen: &LogStats,
    errors: &mut Output<'_, E>,
) {
    match fault {
        LogFault::Write => tell_of(PROGRAM, ": out of memory\n", errors),
        _ => {
            tell_seen(PROGRAM, name, bad, seen, errors);
            tell_log_fault(PROGRAM, name, fault, seen.lines, errors);
        }
    }
}

// Writes what waits, and then these rows.
fn write_rows<W: Write>(rows: &[Row], output: &mut Output<'_, W>) -> Result<(), RunFault> {
    put_rows(rows, output)?;
    output.finish()
}

// Writes rows.
fn put_rows<W: Write>(rows: &[Row], output: &mut Output<'_, W>) -> Result<(), RunFault> {
    for row in rows {
        put_row(row, output)?;
    }
    Ok(())
}

// Writes a count, a tab, its text and a line feed.
fn put_row<W: Write>(row: &Row, output: &mut Output<'_, W>) -> Result<(), RunFault> {
    let count = number_text(row.0.0);
    put_four(
        count.as_bytes(),
        b"\t",
        row.1.as_slice(),
        b"\n",
        output,
    )
}

// Writes four texts.
fn put_four<W: Write>(
    first: &[u8],
    second: &[u8],
    third: &[u8],
    fourth: &[u8],
    output: &mut Output<'_, W>,
) -> Result<(), RunFault> {
    put_both(first, second, output)?;
    put_both(third, fourth, output)
}
