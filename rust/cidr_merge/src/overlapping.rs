// Written by scripts/plain out of crates/cidr_merge/src/overlapping.rt

//! Reports which entries of lists overlap.

use fosibegan_core::plain_std::string::String;
use crate::findings::{either, tell_place};
use crate::placed::{Key, Placed};
use cidr_programs::lines::output::Output;
use cidr_programs::program::command_line::text_at;
use cidr_programs::program::messages::tell;
use fosibegan_core::plain_std::io::Write;

/// Prints each pair of overlapping entries, given entries in order, and returns whether there is
/// one. May reorder the entries.
pub(crate) fn tell_pairs<W: Write>(
    names: &[String],
    entries: &mut [Placed],
    output: &mut Output<'_, W>,
) -> bool {
    let mut found = false;
    // The first `kept` entries are the earlier ones that may overlap a later one.
    let mut kept = 0;
    for place in 0..entries.len() {
        let count = keep_reaching(entries, kept, place);
        let all = &entries[..];
        let more = tell_with(names, &all[..count], &all[place], output);
        found = either(found, more);
        entries.swap(count, place);
        kept = count + 1;
    }
    found
}

// Moves those of the first `kept` entries that the entry at a place overlaps to the front, in their
// order, and returns their number.
fn keep_reaching(entries: &mut [Placed], kept: usize, place: usize) -> usize {
    let mut count = 0;
    for index in 0..kept {
        if overlaps(entries, place, index) {
            entries.swap(count, index);
            count += 1;
        }
    }
    count
}

// Returns whether the entry at a place overlaps an earlier one.
fn overlaps(entries: &[Placed], place: usize, earlier: usize) -> bool {
    is_up_to(&entries[place].first, &entries[earlier].last.0)
}

// Prints the finding for an entry with each of these earlier ones; returns whether there are any.
fn tell_with<W: Write>(
    names: &[String],
    before: &[Placed],
    later: &Placed,
    output: &mut Output<'_, W>,
) -> bool {
    for index in 0..before.len() {
        tell_pair(names, later, &before[index], output);
    }
    !before.is_empty()
}

/// Prints the finding for an entry and an earlier one that it overlaps.
pub(crate) fn tell_pair<W: Write>(
    names: &[String],
    later: &Placed,
    earlier: &Placed,
    output: &mut Output<'_, W>,
) {
    tell_place(text_at(names, later.list), later.number, output);
    tell(": ", output);
    tell(relation(later, earlier), output);
    tell(" ", output);
    tell_place(text_at(names, earlier.list), earlier.number, output);
    tell("\n", output);
}

// Returns how an entry overlaps an earlier one: as the same, within it, or in part.
fn relation(later: &Placed, earlier: &Placed) -> &'static str {
    if !is_up_to(&later.last.0, &earlier.last.0) {
        return "overlaps";
    }
    if is_up_to(&later.first, &earlier.first) && is_up_to(&earlier.last.0, &later.last.0) {
        "same as"
    } else {
        "in"
    }
}

/// Returns whether the first address is not after the last.
pub(crate) fn is_up_to(first: &Key, last: &Key) -> bool {
    if first.0 == last.0 {
        first.1 <= last.1
    } else {
        last.0
    }
}
