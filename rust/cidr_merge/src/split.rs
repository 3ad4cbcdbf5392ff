// Written by scripts/plain out of crates/cidr_merge/src/split.rt

//! Runs a `split`.

use crate::command_line::SplitRequest;
use crate::context::Context;
use crate::cutting::print_pieces;
use crate::held_back::{lacking_of_sets, tell_lacking};
use crate::help::PROGRAM;
use crate::reading::{Sets, read_side, refuse_lists};
use crate::set_names::SetNames;
use crate::shapes::rules_of;
use cidr_programs::lines::fault::RunFault;
use cidr_programs::lines::output::Output;
use cidr_programs::lists::{OpenLists, Refusals};
use cidr_programs::program::ending::{FAILED, end};
use cidr_programs::program::telling::{InLists, tell_refusals};
use fosibegan_core::plain_std::io::Write;

/// Reads the lists, prints their networks in pieces, and returns the exit status.
pub(crate) fn split<L: OpenLists, W: Write, E: Write>(
    request: SplitRequest,
    context: &Context<'_, L>,
    output: &mut Output<'_, W>,
    errors: &mut Output<'_, E>,
) -> u8 {
    let names = context.names;
    let none = Refusals::new();
    let (sets, refusals, read) = read_side(context, request.shape, names, 0, none);
    let form = rules_of(request.shape).form;
    tell_refusals(PROGRAM, names, &InLists, form, &refusals, errors);
    match read {
        Ok(()) => print_split(
            context.sets,
            request,
            !refusals.is_empty(),
            &sets,
            output,
            errors,
        ),
        Err(fault) => refuse_lists(context, fault, errors),
    }
}

// Prints the pieces of the networks, unless lines were refused that are not to be skipped, or there
// are too few networks.
fn print_split<W: Write, E: Write>(
    names: &SetNames<'_>,
    request: SplitRequest,
    skips: bool,
    sets: &Sets,
    output: &mut Output<'_, W>,
    errors: &mut Output<'_, E>,
) -> u8 {
    if skips && !request.skips_bad {
        return FAILED;
    }
    let lacking = lacking_of_sets(sets, request.at_least);
    if lacking > 0 {
        tell_lacking(lacking, request.at_least, errors);
        return FAILED;
    }
    let written = write_split(names, request.length, sets, output);
    let status = status(skips);
    end(PROGRAM, written, status, errors)
}

/// Returns the exit status after networks were written.
pub(crate) fn status(skips: bool) -> u8 {
    if skips { 3 } else { 0 }
}

// Writes the pieces of the networks of both families.
fn write_split<W: Write>(
    names: &SetNames<'_>,
    length: u8,
    sets: &Sets,
    output: &mut Output<'_, W>,
) -> Result<(), RunFault> {
    print_pieces(names, length, &sets.v4, output)?;
    print_pieces(names, length, &sets.v6, output)?;
    output.finish()
}
