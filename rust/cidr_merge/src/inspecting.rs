// Written by scripts/plain out of crates/cidr_merge/src/inspecting.rt

//! Runs an inspection of lists.

use fosibegan_core::plain_std::vec::Vec;
use fosibegan_core::plain_std::string::String;
use crate::checking::{check_ends, check_ends_if, check_lists};
use crate::command_line::Inspection;
use crate::context::Context;
use crate::findings::either;
use crate::help::PROGRAM;
use crate::overlapping::tell_pairs;
use crate::placed::{Placed, entries_of};
use crate::reading::refuse_lists;
use crate::repeating::tell_repetitions;
use crate::texts::{WholeLists, texts_of};
use cidr_programs::lines::output::Output;
use cidr_programs::lists::{OpenLists, Rules};
use cidr_programs::program::ending::end;
use cidr_programs::program::memory::refuse_memory;
use fosibegan_core::plain_std::alloc::Global;
use fosibegan_core::plain_std::io::Write;

/// The exit status if nothing was found.
const NOTHING_FOUND: u8 = 0;

/// The exit status if something was found.
const FOUND: u8 = 1;

/// Inspects the lists, which are read by these rules, and returns the exit status. If they have to
/// be whole, nothing is printed if a FILE does not end with a line feed.
pub(crate) fn inspect<L: OpenLists, W: Write, E: Write>(
    inspection: Inspection,
    rules: Rules,
    context: &Context<'_, L>,
    output: &mut Output<'_, W>,
    errors: &mut Output<'_, E>,
) -> u8 {
    let names = context.names;
    let texts = match texts_of(context, names, 0, rules.is_whole) {
        Ok(texts) => texts,
        Err(fault) => return refuse_lists(context, fault, errors),
    };
    let texts = texts.as_slice();
    look_over(
        inspection,
        context.alloc,
        rules,
        names,
        texts,
        output,
        errors,
    )
}

// Inspects lists of these names and bytes by these rules, and returns the exit status.
fn look_over<W: Write, E: Write>(
    inspection: Inspection,
    alloc: Global,
    rules: Rules,
    names: &[String],
    texts: &[Vec<u8>],
    output: &mut Output<'_, W>,
    errors: &mut Output<'_, E>,
) -> u8 {
    let lists = WholeLists {
        names,
        texts,
        rules,
    };
    match inspection {
        Inspection::Check => check(&lists, output, errors),
        Inspection::Strict => check_ordered(alloc, true, &lists, output, errors),
        Inspection::Overlaps => check_ordered(alloc, false, &lists, output, errors),
    }
}

// Prints the wrong entries of lists and the last ones that may have been cut, and returns the exit
// status.
fn check<W: Write, E: Write>(
    lists: &WholeLists<'_>,
    output: &mut Output<'_, W>,
    errors: &mut Output<'_, E>,
) -> u8 {
    let wrong = check_lists(false, lists, output);
    let cut = check_ends(lists, output);
    let written = output.finish();
    end(PROGRAM, written, status(either(wrong, cut)), errors)
}

// Prints the wrong entries of lists, if strictly the last ones that may have been cut, then the
// findings for all entries in order, and returns the exit status.
fn check_ordered<W: Write, E: Write>(
    alloc: Global,
    strictly: bool,
    lists: &WholeLists<'_>,
    output: &mut Output<'_, W>,
    errors: &mut Output<'_, E>,
) -> u8 {
    let mut entries = match entries_of(alloc, lists) {
        Ok(entries) => entries,
        Err(_) => return refuse_memory(PROGRAM, errors),
    };
    let wrong = check_lists(strictly, lists, output);
    let cut = check_ends_if(strictly, lists, output);
    let more = tell_ordered(strictly, lists.names, entries.as_mut_slice(), output);
    let rest = either(cut, more);
    let written = output.finish();
    end(PROGRAM, written, status(either(wrong, rest)), errors)
}

// Prints the findings for entries in order, and returns whether there are any. May reorder the
// entries.
fn tell_ordered<W: Write>(
    strictly: bool,
    names: &[String],
    entries: &mut [Placed],
    output: &mut Output<'_, W>,
) -> bool {
    if strictly {
        tell_repetitions(names, entries, output)
    } else {
        tell_pairs(names, entries, output)
    }
}

// Returns the exit status, given whether something was found.
fn status(found: bool) -> u8 {
    if found { FOUND } else { NOTHING_FOUND }
}
