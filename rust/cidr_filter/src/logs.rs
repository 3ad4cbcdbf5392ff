// Written by scripts/plain out of crates/cidr_filter/src/logs.rt

//! Filters the logs of a run in turn.

use fosibegan_core::plain_std::string::String;
use crate::filter::{Filter, OutputMode, Verdict};
use crate::help::PROGRAM;
use crate::log::{Reached, Tally, filter_log};
use crate::naming::{label_of, put_count};
use cidr_programs::line_addresses::Text;
use cidr_programs::lines::output::Output;
use cidr_programs::lines::watched::Watched;
use cidr_programs::lists::{OpenFault, OpenLists, open_input, open_list};
use cidr_programs::log_programs::telling::{
    Unaddressed, is_missed, tell_closed, tell_lacking, tell_seen, tell_unaddressed,
};
use cidr_programs::log_programs::without_address::WithoutAddress;
use cidr_programs::program::ending::{FAILED, end};
use cidr_programs::program::log_fault::{LogFault, stop};
use cidr_programs::program::log_reader::LogReader;
use fosibegan_core::plain_std::io::Write;
use std::mem::replace;

/// The exit status if a line was selected.
const SELECTED: u8 = 0;

/// The exit status if none was.
const NONE_SELECTED: u8 = 1;

/// What a log, or logs, come to.
#[derive(Clone, Copy, Debug, PartialEq, Eq)]
pub struct Outcome {
    /// How many of its lines are selected.
    pub selected: u64,
    /// Whether it could not be opened, or a line of it is missed.
    pub missed: bool,
}

impl Outcome {
    // Returns what no logs come to.
    fn new() -> Outcome {
        Outcome {
            selected: 0,
            missed: false,
        }
    }

    // Returns what logs and one more come to.
    fn with(self, one: Outcome) -> Outcome {
        Outcome {
            selected: self.selected.saturating_add(one.selected),
            missed: self.missed || one.missed,
        }
    }

    // Returns whether no log more is opened after logs that come to this.
    fn is_enough(self, is_silent: bool) -> bool {
        is_silent && self.selected > 0
    }

    // Returns the exit status.
    fn status(self, is_silent: bool) -> u8 {
        if self.is_enough(is_silent) {
            SELECTED
        } else if self.missed {
            FAILED
        } else if self.selected > 0 {
            SELECTED
        } else {
            NONE_SELECTED
        }
    }
}

/// Filters the logs of these names in their order, and returns the exit status.
pub(crate) fn filter_logs<'a, L: OpenLists, W: Write, E: Write>(
    filter: &mut Filter<'a>,
    lists: &L,
    files: &'a [String],
    buffer: &mut [u8],
    output: &mut Output<'_, W>,
    errors: &mut Output<'_, E>,
) -> u8 {
    let is_silent = filter.is_silent();
    let mut total = Outcome::new();
    let mut unaddressed = Unaddressed::new();
    for file in files {
        if total.is_enough(is_silent) {
            return finish(total.status(is_silent), output, errors);
        }
        let name = file.as_str();
        let Some(next) = filter_one(
            filter,
            lists,
            name,
            buffer,
            total,
            &mut unaddressed,
            output,
            errors,
        ) else {
            return FAILED;
        };
        total = next;
    }
    tell_left(filter, &unaddressed, errors);
    finish(total.status(is_silent), output, errors)
}

// Reports how many lines have no address, so that neither the run nor one with `-v` prints them,
// unless nothing is printed or `--bad` says what becomes of them.
fn tell_left<E: Write>(filter: &Filter<'_>, unaddressed: &Unaddressed, errors: &mut Output<'_, E>) {
    if filter.bad == WithoutAddress::Unsaid && filter.shows != OutputMode::Nothing {
        tell_unaddressed(PROGRAM, &filter.area, unaddressed, errors);
    }
}

// Writes what waits, and returns the exit status: this one, or 2 if a write failed, which is
// reported.
fn finish<W: Write, E: Write>(
    status: u8,
    output: &mut Output<'_, W>,
    errors: &mut Output<'_, E>,
) -> u8 {
    let written = output.finish();
    end(PROGRAM, written, status, errors)
}

// Opens the log with this name. If lines or their addresses are printed, it refuses the file that
// they are written to.
fn open_log<L: OpenLists>(
    shows: OutputMode,
    lists: &L,
    name: &str,
) -> Result<Watched<L::List>, OpenFault> {
    match shows {
        OutputMode::Lines | OutputMode::Addresses => open_input(lists, name),
        _ => open_list(lists, name),
    }
}

// Opens the log with this name and filters it, and returns what the logs up to it come to; those
// before it came to `total`. What is missed is reported, and lines without an address are counted.
// If a fault ends the run, that is reported and `None` is returned.
fn filter_one<'a, L: OpenLists, W: Write, E: Write>(
    filter: &mut Filter<'a>,
    lists: &L,
    name: &'a str,
    buffer: &mut [u8],
    total: Outcome,
    unaddressed: &mut Unaddressed,
    output: &mut Output<'_, W>,
    errors: &mut Output<'_, E>,
) -> Option<Outcome> {
    let mut log = match open_log(filter.shows, lists, name) {
        Ok(log) => log,
        Err(cause) => {
            tell_closed(PROGRAM, name, cause, errors);
            return Some(total.with(Outcome {
                selected: 0,
                missed: true,
            }));
        }
    };
    let label = label_of(filter.named, name);
    let before = replace(&mut filter.name, Text::new(label));
    let mut tally = Tally::new();
    let mut lines = LogReader::new(buffer, filter.refuses(&Verdict::TooLong));
    let end = filter_log(filter, &mut lines, &mut log, output, &mut tally);
    filter.name = before;
    lists.close(name, log);
    let (selected, seen) = (tally.selected, tally.seen);
    tell_seen(PROGRAM, name, filter.bad, &seen, errors);
    match end {
        Ok(reached) => {
            if reached == Reached::End {
                unaddressed.add(&seen);
                tell_lacking(
                    PROGRAM,
                    &filter.area,
                    name,
                    seen.lines,
                    seen.is_addressed,
                    errors,
                );
            }
            if put_count(filter.counts(), filter.nul, label, selected, output).is_ok() {
                return Some(total.with(Outcome {
                    selected,
                    missed: is_missed(filter.bad, &seen),
                }));
            }
            stop(PROGRAM, name, LogFault::Write, seen.lines, output, errors);
            None
        }
        Err(fault) => {
            stop(PROGRAM, name, fault, seen.lines, output, errors);
            None
        }
    }
}
