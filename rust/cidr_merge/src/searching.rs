// Written by scripts/plain out of crates/cidr_merge/src/searching.rt

//! Searches lists for addresses and networks.

use crate::entry_match::{Relation, entry_of, relation_of};
use crate::findings::{either, tell_line, tell_refused};
use crate::numbered_lines::{Line, NumberedLines};
use crate::query::Query;
use crate::sought::Sought;
use crate::sought_places::put_found;
use crate::texts::WholeLists;
use cidr_programs::lines::output::Output;
use cidr_programs::lists::{Entry, Rules};
use fosibegan_core::plain_std::io::Write;

/// What a search wrote.
#[derive(Clone, Copy, Debug, PartialEq, Eq)]
pub(crate) struct Reported {
    /// Whether a line was printed.
    pub printed: bool,
    /// Whether a refused line was reported.
    pub told: bool,
}

/// Prints the entries of lists that meet sought networks, and reports the refused lines.
pub(crate) fn search_lists<W: Write, E: Write>(
    query: &Query,
    buffer: &mut [usize],
    lists: &WholeLists<'_>,
    output: &mut Output<'_, W>,
    errors: &mut Output<'_, E>,
) -> Reported {
    let mut printed = false;
    let mut told = false;
    let mut lines = NumberedLines::of(lists);
    while let Some(line) = lines.next() {
        let more = search_line(lists.rules, query, buffer, &line, output, errors);
        printed = either(printed, more.printed);
        told = either(told, more.told);
    }
    Reported { printed, told }
}

// Searches a line that is read by these rules, or reports why it is refused.
fn search_line<W: Write, E: Write>(
    rules: Rules,
    query: &Query,
    buffer: &mut [usize],
    line: &Line<'_>,
    output: &mut Output<'_, W>,
    errors: &mut Output<'_, E>,
) -> Reported {
    match entry_of(rules, line.text) {
        Ok(None) => Reported {
            printed: false,
            told: false,
        },
        Ok(Some(entry)) => Reported {
            printed: print_matches(query, buffer, line, &entry, output),
            told: false,
        },
        Err(fault) => {
            tell_refused(line, fault, errors);
            Reported {
                printed: false,
                told: true,
            }
        }
    }
}

// Prints a line for each of the networks sought that the entry of a line meets.
fn print_matches<W: Write>(
    query: &Query,
    buffer: &mut [usize],
    line: &Line<'_>,
    entry: &Entry,
    output: &mut Output<'_, W>,
) -> bool {
    let count = put_found(query, entry, buffer);
    print_found(
        query.sought.as_slice(),
        &buffer[..count],
        line,
        entry,
        output,
    )
}

// Prints a line for each of the networks at these places that the entry of a line meets.
fn print_found<W: Write>(
    sought: &[Sought],
    places: &[usize],
    line: &Line<'_>,
    entry: &Entry,
    output: &mut Output<'_, W>,
) -> bool {
    let mut printed = false;
    let mut next = 0;
    for at in 0..places.len() {
        let place = places[at];
        if place < next {
            continue;
        }
        let more = print_match(&sought[place], line, entry, output);
        printed = either(printed, more);
        next = place + 1;
    }
    printed
}

// Prints how the entry of a line relates to a network, if they share an address.
fn print_match<W: Write>(
    one: &Sought,
    line: &Line<'_>,
    entry: &Entry,
    output: &mut Output<'_, W>,
) -> bool {
    let text = one.text.as_slice();
    match relation_of(entry, &one.network) {
        Relation::HasAll => print_relation(has_words(text), text, line, output),
        Relation::LiesIn => print_relation(": lies in ", text, line, output),
        Relation::Meets => print_relation(": meets ", text, line, output),
        Relation::Apart => false,
    }
}

// Prints what the entry of a line is to the network of a text, and returns `true`: a line is
// printed.
fn print_relation<W: Write>(
    what: &str,
    text: &[u8],
    line: &Line<'_>,
    output: &mut Output<'_, W>,
) -> bool {
    tell_line(line, what, text, ": ", output);
    true
}

// What is reported of an entry that has all addresses of the network that a text names, which is an
// address if it has no `/`.
fn has_words(text: &[u8]) -> &'static str {
    if has_slash(text) {
        ": has all of "
    } else {
        ": has "
    }
}

// Whether the text has a `/`.
fn has_slash(text: &[u8]) -> bool {
    text.iter().any(|byte| *byte == b'/')
}
