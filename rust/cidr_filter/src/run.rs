// Written by scripts/plain out of crates/cidr_filter/src/run.rt

//! The run that the program makes.

use fosibegan_core::plain_std::string::String;
use fosibegan_core::plain_std::vec;
use crate::filter::{Family, Filter, OutputMode};
use crate::help::{HELP, PROGRAM, USAGE, VERSION};
use crate::logs::filter_logs;
use crate::matcher::Matcher;
use crate::reading::{question_of, read_listed, rules_of};
use crate::rows::{
    BAD, COUNTS, INVERTS, MOST, NAMED, NAMES, NUL, NUMBERED, ONLY, ONLY_V4, ONLY_V6, QUIET,
    SKIPS_BAD, UNNAMED, table,
};
use crate::telling::{InOptions, names_of};
use cidr_programs::line_addresses::Text;
use cidr_programs::lines::output::Output;
use cidr_programs::lists::{OpenLists, Refusals};
use cidr_programs::log_programs::areas::area_of;
use cidr_programs::log_programs::rows::MAPPED;
use cidr_programs::log_programs::without_address::bad_in;
use cidr_programs::options::asking::{About, asked};
use cidr_programs::options::given::{inputs_of, is_given, value_of};
use cidr_programs::options::items::Item;
use cidr_programs::options::values::number_in;
use cidr_programs::program::ending::FAILED;
use cidr_programs::program::log_reader::BUFFER_LEN;
use cidr_programs::program::memory::refuse_memory;
use cidr_programs::program::telling::{tell_fault, tell_refusals};
use fosibegan_core::plain_std::alloc::Global;
use fosibegan_core::plain_std::io::Write;

/// Does what the words after the program's name ask for, and returns the exit status.
pub(crate) fn run<L: OpenLists, W: Write, E: Write>(
    alloc: Global,
    words: &[String],
    lists: &L,
    output: &mut Output<'_, W>,
    errors: &mut Output<'_, E>,
) -> u8 {
    let about = About {
        program: PROGRAM,
        help: HELP,
        version: VERSION,
        usage: USAGE,
    };
    match asked(alloc, &about, &table(), words, output, errors) {
        Ok(items) => filter(alloc, items.as_slice(), lists, output, errors),
        Err(status) => status,
    }
}

// Does what is asked for.
fn filter<L: OpenLists, W: Write, E: Write>(
    alloc: Global,
    items: &[Item<'_>],
    lists: &L,
    output: &mut Output<'_, W>,
    errors: &mut Output<'_, E>,
) -> u8 {
    let Ok(names) = names_of(alloc, items) else {
        return refuse_memory(PROGRAM, errors);
    };
    let Ok(files) = inputs_of(alloc, items) else {
        return refuse_memory(PROGRAM, errors);
    };
    filter_files(
        alloc,
        items,
        names.as_slice(),
        files.as_slice(),
        lists,
        output,
        errors,
    )
}

// Reads the lists, reports the refused lines by these names of the lists, and then filters these
// logs, unless refused lines end the run or memory runs out.
fn filter_files<L: OpenLists, W: Write, E: Write>(
    alloc: Global,
    items: &[Item<'_>],
    names: &[String],
    files: &[String],
    lists: &L,
    output: &mut Output<'_, W>,
    errors: &mut Output<'_, E>,
) -> u8 {
    let question = question_of(items);
    let (listed, refusals, read) = read_listed(alloc, lists, items, question);
    let form = rules_of(items).form;
    tell_refusals(
        PROGRAM,
        names,
        &InOptions { items },
        form,
        &refusals,
        errors,
    );
    if let Err(fault) = read {
        tell_fault(PROGRAM, names, &[], fault, errors);
        return FAILED;
    }
    if is_stopped_by(items, &refusals) {
        return FAILED;
    }
    let Ok(listed) = listed else {
        return refuse_memory(PROGRAM, errors);
    };
    let Ok(mut buffer) = vec![in alloc; 0u8; BUFFER_LEN] else {
        return refuse_memory(PROGRAM, errors);
    };
    let mut filter = filter_of(items, files, listed);
    filter_logs(
        &mut filter,
        lists,
        files,
        buffer.as_mut_slice(),
        output,
        errors,
    )
}

// Returns whether refused lines of lists end the run: if there is one, unless they are skipped.
fn is_stopped_by(items: &[Item<'_>], refusals: &Refusals) -> bool {
    !refusals.is_empty() && !is_given(items, SKIPS_BAD)
}

// Returns the filter that is asked for, for logs with these names.
fn filter_of<'a>(items: &[Item<'a>], files: &[String], listed: Matcher) -> Filter<'a> {
    Filter {
        listed,
        area: area_of(items),
        mapped: is_given(items, MAPPED),
        family: family_of(items),
        inverts: is_given(items, INVERTS),
        bad: bad_in(value_of(items, BAD)),
        most: most_of(items),
        shows: shows_of(items),
        named: is_named(items, files),
        numbered: is_given(items, NUMBERED),
        nul: is_given(items, NUL),
        name: no_name(),
    }
}

// Returns the family whose addresses count.
fn family_of(items: &[Item<'_>]) -> Family {
    if is_given(items, ONLY_V4) {
        Family::V4
    } else if is_given(items, ONLY_V6) {
        Family::V6
    } else {
        Family::Either
    }
}

// Returns how many lines of a log may be selected at most.
fn most_of(items: &[Item<'_>]) -> Option<u64> {
    let most = number_in(value_of(items, MOST));
    if is_given(items, QUIET) || is_given(items, NAMES) {
        up_to_one(most)
    } else {
        most
    }
}

// Returns at most one: none if no line may be selected.
fn up_to_one(most: Option<u64>) -> Option<u64> {
    match most {
        Some(most) => Some(most.min(1)),
        None => Some(1),
    }
}

// What is printed.
fn shows_of(items: &[Item<'_>]) -> OutputMode {
    if is_given(items, QUIET) {
        OutputMode::Nothing
    } else if is_given(items, NAMES) {
        OutputMode::Names
    } else if is_given(items, COUNTS) {
        OutputMode::Count
    } else if is_given(items, ONLY) {
        OutputMode::Addresses
    } else {
        OutputMode::Lines
    }
}

// Returns whether the name of a log is printed before a line or before the number of its lines.
fn is_named(items: &[Item<'_>], files: &[String]) -> bool {
    if is_given(items, NAMED) || is_given(items, NAMES) {
        return true;
    }
    is_given(items, COUNTS) && files.len() > 1 && !is_given(items, UNNAMED)
}

// No name before lines.
fn no_name<'a>() -> Text<'a> {
    Text::new(b"".as_slice())
}
