// Written by scripts/plain out of crates/cidr_join/src/run.rt

//! The run that the program makes.

use fosibegan_core::plain_std::string::String;
use fosibegan_core::plain_std::vec;
use crate::answers::Answers;
use crate::help::{HELP, PROGRAM, USAGE, VERSION};
use crate::join::Join;
use crate::lengths::Lengths;
use crate::list::ListRules;
use crate::logs::join_logs;
use crate::reading::{ReadList, read_lists, take_lists};
use crate::routes::Routes;
use crate::rows::{
    BAD, GROUP, LAST, LAST_WINS, NETWORK, NETWORKS, RANGES, SKIPS_BAD, STRICT, TALLY, ZERO, table,
};
use crate::tally_logs::tally_logs;
use crate::whole::tell_cut_if_asked;
use cidr_programs::lines::output::Output;
use cidr_programs::lists::OpenLists;
use cidr_programs::log_programs::areas::area_of;
use cidr_programs::log_programs::rows::MAPPED;
use cidr_programs::log_programs::without_address::bad_in;
use cidr_programs::options::asking::{About, asked};
use cidr_programs::options::faults::{Subject, about};
use cidr_programs::options::given::{inputs_of, is_given, value_of};
use cidr_programs::options::items::Item;
use cidr_programs::options::refusing::refuse;
use cidr_programs::options::values::lengths_in;
use cidr_programs::program::ending::FAILED;
use cidr_programs::program::log_reader::BUFFER_LEN;
use cidr_programs::program::memory::refuse_memory;
use fosibegan_core::plain_std::alloc::Global;
use fosibegan_core::plain_std::io::Write;

/// Does what the words after the program's name ask for, and returns the exit status.
pub(crate) fn run<L: OpenLists, W: Write, E: Write>(
    alloc: Global,
    words: &[String],
    lists: &L,
    output: &mut Output<'_, W>,
    errors: &mut Output<'_, E>,
) -> u8 {
    let about = About {
        program: PROGRAM,
        help: HELP,
        version: VERSION,
        usage: USAGE,
    };
    match asked(alloc, &about, &table(), words, output, errors) {
        Ok(items) => join(alloc, items.as_slice(), lists, output, errors),
        Err(status) => status,
    }
}

// Does what is asked for.
fn join<L: OpenLists, W: Write, E: Write>(
    alloc: Global,
    items: &[Item<'_>],
    lists: &L,
    output: &mut Output<'_, W>,
    errors: &mut Output<'_, E>,
) -> u8 {
    if lacks_tally(items) {
        let fault = about(Subject::CommandLine, "--zero goes only with --tally");
        return refuse(PROGRAM, USAGE, &[], &fault, errors);
    }
    match inputs_of(alloc, items) {
        Ok(files) => join_files(alloc, items, files.as_slice(), lists, output, errors),
        Err(_) => refuse_memory(PROGRAM, errors),
    }
}

// Whether `--zero` is given without `--tally`.
fn lacks_tally(items: &[Item<'_>]) -> bool {
    is_given(items, ZERO) && !is_given(items, TALLY)
}

// Reads the list and joins these logs to it, or, with `--group`, groups their lines in blocks.
fn join_files<L: OpenLists, W: Write, E: Write>(
    alloc: Global,
    items: &[Item<'_>],
    files: &[String],
    lists: &L,
    output: &mut Output<'_, W>,
    errors: &mut Output<'_, E>,
) -> u8 {
    if let Some(lengths) = lengths_of(items) {
        let answers = Answers::Blocks(lengths);
        return join_by(alloc, items, files, answers, lists, output, errors);
    }
    let Some(read) = read_lists(alloc, lists, items, errors) else {
        return FAILED;
    };
    let read = read.as_slice();
    if tell_cut_if_asked(items, read, errors) {
        return FAILED;
    }
    join_to(alloc, items, files, read, lists, output, errors)
}

// The lengths of the blocks in which lines are grouped, if they are.
fn lengths_of(items: &[Item<'_>]) -> Option<Lengths> {
    match lengths_in(value_of(items, GROUP)) {
        Some((v4, v6)) => Some(Lengths { v4, v6 }),
        None => None,
    }
}

// Joins the logs to the list with this name and these bytes, or counts their lines by it.
fn join_to<L: OpenLists, W: Write, E: Write>(
    alloc: Global,
    items: &[Item<'_>],
    files: &[String],
    read: &[ReadList<'_>],
    lists: &L,
    output: &mut Output<'_, W>,
    errors: &mut Output<'_, E>,
) -> u8 {
    let Some(networks) = take_lists(alloc, read, rules_of(items), errors) else {
        return FAILED;
    };
    let Ok(routes) = Routes::of(alloc, networks) else {
        return refuse_memory(PROGRAM, errors);
    };
    let network = is_given(items, NETWORK);
    let answers = answers_by(network, routes);
    join_by(alloc, items, files, answers, lists, output, errors)
}

// Returns how the lines of the list are taken.
fn rules_of(items: &[Item<'_>]) -> ListRules {
    ListRules {
        last_wins: is_given(items, LAST_WINS),
        bare: is_given(items, NETWORK),
        ranges: is_given(items, RANGES),
        strict: is_given(items, STRICT),
        skips: is_given(items, SKIPS_BAD),
    }
}

// Returns what is printed for addresses by the routes of a list: networks or values.
fn answers_by(network: bool, routes: Routes<'_>) -> Answers<'_> {
    if network {
        Answers::Networks(routes)
    } else {
        Answers::Values(routes)
    }
}

// Joins the logs or counts their lines; `answers` decides what is printed for addresses.
fn join_by<'a, L: OpenLists, W: Write, E: Write>(
    alloc: Global,
    items: &[Item<'a>],
    files: &[String],
    answers: Answers<'a>,
    lists: &L,
    output: &mut Output<'_, W>,
    errors: &mut Output<'_, E>,
) -> u8 {
    let Ok(mut buffer) = vec![in alloc; 0u8; BUFFER_LEN] else {
        return refuse_memory(PROGRAM, errors);
    };
    let join = join_of(items, answers);
    let buffer = buffer.as_mut_slice();
    if is_given(items, TALLY) {
        return tally_logs(alloc, &join, lists, buffer, files, output, errors);
    }
    join_logs(&join, lists, files, buffer, output, errors)
}

// Returns what decides what is printed for a line.
fn join_of<'a>(items: &[Item<'a>], answers: Answers<'a>) -> Join<'a> {
    Join {
        answers,
        area: area_of(items),
        networks: is_given(items, NETWORKS),
        mapped: is_given(items, MAPPED),
        last: is_given(items, LAST),
        bad: bad_in(value_of(items, BAD)),
        zeros: is_given(items, ZERO),
    }
}
