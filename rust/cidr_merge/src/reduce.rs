// Written by scripts/plain out of crates/cidr_merge/src/reduce.rt

//! Prints at most a given number of networks that have all addresses of lists.

use fosibegan_core::plain_std::vec::Vec;
use crate::bounds::{Bound, allowed};
use crate::command_line::ReduceRequest;
use crate::context::Context;
use crate::counts::tell_count;
use crate::help::PROGRAM;
use crate::printing::Merging;
use crate::reading::{Sets, read_side, refuse_lists};
use crate::run::answer;
use crate::set_names::SetNames;
use crate::shapes::rules_of;
use fosibegan_core::ipnetwork::{Ipv4Network, Ipv6Network};
use fosibegan_core::ipnetwork_blocks::AddressSpace;
use fosibegan_core::ipnetwork_sets::AddressSet;
use cidr_programs::lines::output::Output;
use cidr_programs::lists::{OpenLists, Refusals};
use cidr_programs::program::ending::FAILED;
use cidr_programs::program::memory::refuse_memory;
use cidr_programs::program::messages::{tell, tell_of};
use cidr_programs::program::telling::{InLists, tell_refusals};
use fosibegan_core::plain_std::alloc::{AllocError, Global};
use fosibegan_core::plain_std::io::Write;

/// Reads the lists, prints networks that have all their addresses, and returns the exit status.
pub(crate) fn reduce<L: OpenLists, W: Write, E: Write>(
    request: ReduceRequest,
    context: &Context<'_, L>,
    output: &mut Output<'_, W>,
    errors: &mut Output<'_, E>,
) -> u8 {
    let names = context.names;
    let none = Refusals::new();
    let (sets, refusals, read) = read_side(context, request.merge.shape, names, 0, none);
    let form = rules_of(request.merge.shape).form;
    tell_refusals(PROGRAM, names, &InLists, form, &refusals, errors);
    match read {
        Ok(()) => join(request, context, !refusals.is_empty(), sets, output, errors),
        Err(fault) => refuse_lists(context, fault, errors),
    }
}

// Joins the networks of each family, unless lines were refused that are not to be skipped or a
// family has no number, and prints what is left.
fn join<L: OpenLists, W: Write, E: Write>(
    request: ReduceRequest,
    context: &Context<'_, L>,
    skips: bool,
    sets: Sets,
    output: &mut Output<'_, W>,
    errors: &mut Output<'_, E>,
) -> u8 {
    if skips && !request.merge.skips_bad {
        return FAILED;
    }
    if let Some(problem) = number_lacking(&request, &sets) {
        tell_of(PROGRAM, problem, errors);
        return FAILED;
    }
    match reduce_both(context.alloc, &request, sets) {
        Ok((v4, v6)) => print_reduced(request, context.sets, skips, v4, v6, output, errors),
        Err(_) => refuse_memory(PROGRAM, errors),
    }
}

// The message for a family of the lists that has no number, if there is one.
fn number_lacking(request: &ReduceRequest, sets: &Sets) -> Option<&'static str> {
    let (v4, v6) = (is_any(&sets.v4), is_any(&sets.v6));
    if request.is_of_one && v4 && v6 {
        Some(": the FILEs have addresses of both families: reduce each, with --ipv4 N --ipv6 N\n")
    } else if request.v4 == 0 && v4 {
        Some(": the FILEs have addresses of IPv4, too: add --ipv4 N\n")
    } else if request.v6 == 0 && v6 {
        Some(": the FILEs have addresses of IPv6, too: add --ipv6 N\n")
    } else {
        None
    }
}

/// Whether a set has addresses.
pub(crate) fn is_any<N: AddressSpace>(set: &AddressSet<N>) -> bool {
    !set.is_empty()
}

// A reduced list of a family, how many other addresses it has, and how many it may have.
struct Reduced<N> {
    blocks: Vec<N>,
    others: u128,
    allowed: u128,
}

// Reduces the lists of both families.
fn reduce_both(
    alloc: Global,
    request: &ReduceRequest,
    sets: Sets,
) -> Result<(Reduced<Ipv4Network>, Reduced<Ipv6Network>), AllocError> {
    let v4 = reduce_one(alloc, request.v4, request.bound, sets.v4)?;
    let v6 = reduce_one(alloc, request.v6, request.bound, sets.v6)?;
    Ok((v4, v6))
}

// Reduces the list of a family.
fn reduce_one<N: AddressSpace>(
    alloc: Global,
    most: usize,
    bound: Bound,
    set: AddressSet<N>,
) -> Result<Reduced<N>, AllocError> {
    let allowed = allowed(bound, set.address_count());
    let reduced = cidr_programs::reducing::reduce(alloc, set, most)?;
    Ok(Reduced {
        blocks: reduced.blocks,
        others: reduced.others,
        allowed,
    })
}

// Reports how many other addresses the networks have, and prints the least list with the same
// addresses, unless a family has too many others.
fn print_reduced<W: Write, E: Write>(
    request: ReduceRequest,
    names: &SetNames<'_>,
    skips: bool,
    v4: Reduced<Ipv4Network>,
    v6: Reduced<Ipv6Network>,
    output: &mut Output<'_, W>,
    errors: &mut Output<'_, E>,
) -> u8 {
    if v4.others > v4.allowed || v6.others > v6.allowed {
        tell_too_many("IPv4", v4.others, v4.allowed, errors);
        tell_too_many("IPv6", v6.others, v6.allowed, errors);
        return FAILED;
    }
    tell_others(v4.others, v6.others, errors);
    let left = Sets {
        v4: AddressSet::from_networks(v4.blocks),
        v6: AddressSet::from_networks(v6.blocks),
    };
    let merging = Merging {
        request: request.merge,
        sets: names,
        first: &left,
        second: &left,
    };
    answer(&merging, skips, output, errors)
}

// Reports that a family has more other addresses than are allowed, if it has.
fn tell_too_many<E: Write>(family: &str, others: u128, allowed: u128, errors: &mut Output<'_, E>) {
    if others <= allowed {
        return;
    }
    tell_of(PROGRAM, ": ", errors);
    tell_count(others, errors);
    tell(" other addresses of ", errors);
    tell(family, errors);
    tell(" are more than ", errors);
    tell_count(allowed, errors);
    tell(": see --max-others\n", errors);
}

// Reports how many addresses the networks of each family have that the lists have not.
fn tell_others<E: Write>(v4: u128, v6: u128, errors: &mut Output<'_, E>) {
    tell_of(PROGRAM, ": ", errors);
    tell_count(v4, errors);
    tell(" other addresses of IPv4, ", errors);
    tell_count(v6, errors);
    tell(" of IPv6\n", errors);
}
