// Written by scripts/plain out of crates/cidr_merge/src/repeating.rt

//! Reports which entries of lists share addresses with an earlier one.

use fosibegan_core::plain_std::string::String;
use crate::findings::either;
use crate::overlapping::{is_up_to, tell_pair};
use crate::placed::Placed;
use cidr_programs::lines::output::Output;
use fosibegan_core::plain_std::io::Write;

/// Prints each entry that overlaps an earlier one, with one of those, given entries in order, and
/// returns whether there is one.
pub(crate) fn tell_repetitions<W: Write>(
    names: &[String],
    entries: &[Placed],
    output: &mut Output<'_, W>,
) -> bool {
    let Some((first, others)) = entries.split_first() else {
        return false;
    };
    let mut found = false;
    let mut previous = *first;
    // Of the earlier entries, the first of those with the greatest last address.
    let mut furthest = *first;
    for place in 0..others.len() {
        let later = others[place];
        let more = tell_overlap(
            names,
            &later,
            &other_of(&previous, &furthest, &later),
            output,
        );
        found = either(found, more);
        previous = later;
        furthest = further(&furthest, &later);
    }
    found
}

// Prints the finding for an entry and an earlier one if they overlap, and returns whether they do.
fn tell_overlap<W: Write>(
    names: &[String],
    later: &Placed,
    earlier: &Placed,
    output: &mut Output<'_, W>,
) -> bool {
    if reaches(later, earlier) {
        tell_pair(names, later, earlier, output);
        return true;
    }
    false
}

// Returns whether an entry overlaps an earlier one.
fn reaches(later: &Placed, earlier: &Placed) -> bool {
    is_up_to(&later.first, &earlier.last.0)
}

// Returns the entry with which a later one is compared: the one just before it, if it has the same
// addresses, else the one that reaches furthest.
fn other_of(previous: &Placed, furthest: &Placed, later: &Placed) -> Placed {
    if is_same(later, previous) {
        *previous
    } else {
        *furthest
    }
}

// Returns whether an entry has the same addresses as an earlier one.
fn is_same(later: &Placed, earlier: &Placed) -> bool {
    is_up_to(&later.first, &earlier.first)
        && is_up_to(&later.last.0, &earlier.last.0)
        && is_up_to(&earlier.last.0, &later.last.0)
}

// Returns that of two entries with the greater last address; the earlier one if the last addresses
// are equal.
fn further(earlier: &Placed, later: &Placed) -> Placed {
    if is_up_to(&later.last.0, &earlier.last.0) {
        *earlier
    } else {
        *later
    }
}
