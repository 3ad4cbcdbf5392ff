// Written by scripts/plain out of crates/cidr_merge/src/placing.rt

//! Prints free networks for numbers of hosts.

use crate::counts::tell_count;
use crate::cutting::put_network;
use crate::help::PROGRAM;
use crate::hosts::hosts_in;
use crate::set_names::SetNames;
use crate::split::status;
use cidr_programs::allotting::{lengths_for, places};
use fosibegan_core::ipnetwork::{Address, Network};
use fosibegan_core::ipnetwork_sets::AddressSet;
use cidr_programs::lines::fault::RunFault;
use cidr_programs::lines::output::Output;
use cidr_programs::program::ending::{FAILED, end};
use cidr_programs::program::memory::refuse_memory;
use cidr_programs::program::messages::{tell, tell_of};
use fosibegan_core::plain_std::alloc::{AllocError, Global};
use fosibegan_core::plain_std::io::Write;

/// The exit status if a number has no free network.
const NO_PLACE: u8 = 1;

/// Prints a free network for each number of hosts that is asked for, and returns the exit status.
pub(crate) fn print_places<A: Address, W: Write, E: Write>(
    alloc: Global,
    names: &SetNames<'_>,
    skips: bool,
    pools: AddressSet<Network<A>>,
    used: &AddressSet<Network<A>>,
    output: &mut Output<'_, W>,
    errors: &mut Output<'_, E>,
) -> u8 {
    let Ok(numbers) = hosts_in(alloc, names.hosts) else {
        return refuse_memory(PROGRAM, errors);
    };
    let lengths = match lengths_for::<Network<A>>(alloc, numbers.as_slice()) {
        Ok(Ok(lengths)) => lengths,
        Ok(Err(at)) => {
            tell_hosts("no network has ", numbers[at], errors);
            return FAILED;
        }
        Err(_) => return refuse_memory(PROGRAM, errors),
    };
    match places(alloc, pools, used, lengths.as_slice()) {
        Ok(places) => {
            print_placed(
                names,
                skips,
                numbers.as_slice(),
                places.as_slice(),
                output,
                errors,
            )
        }
        Err(_) => refuse_memory(PROGRAM, errors),
    }
}

// Prints the networks, unless a number has none.
fn print_placed<A: Address, W: Write, E: Write>(
    names: &SetNames<'_>,
    skips: bool,
    numbers: &[u128],
    places: &[Option<Network<A>>],
    output: &mut Output<'_, W>,
    errors: &mut Output<'_, E>,
) -> u8 {
    if does_lack(places) {
        tell_lacking(numbers, places, errors);
        return NO_PLACE;
    }
    let written = write_places(names, places, output);
    let status = status(skips);
    end(PROGRAM, written, status, errors)
}

// Whether a place has no network.
fn does_lack<A: Address>(places: &[Option<Network<A>>]) -> bool {
    let mut at = 0;
    while at < places.len() {
        if places[at].is_none() {
            return true;
        }
        at += 1;
    }
    false
}

// Reports each number that has no place.
fn tell_lacking<A: Address, E: Write>(
    numbers: &[u128],
    places: &[Option<Network<A>>],
    errors: &mut Output<'_, E>,
) {
    for (number, place) in numbers.iter().zip(places.iter()) {
        if place.is_none() {
            tell_hosts("no network is free for ", *number, errors);
        }
    }
}

// Reports what is the case of a number of hosts.
fn tell_hosts<E: Write>(problem: &str, number: u128, errors: &mut Output<'_, E>) {
    tell_of(PROGRAM, ": ", errors);
    tell(problem, errors);
    tell_count(number, errors);
    tell(" hosts\n", errors);
}

// Writes the networks of places.
fn write_places<A: Address, W: Write>(
    names: &SetNames<'_>,
    places: &[Option<Network<A>>],
    output: &mut Output<'_, W>,
) -> Result<(), RunFault> {
    put_places(names, places, output)?;
    output.finish()
}

// Prints the networks of places.
fn put_places<A: Address, W: Write>(
    names: &SetNames<'_>,
    places: &[Option<Network<A>>],
    output: &mut Output<'_, W>,
) -> Result<(), RunFault> {
    let mut left = places;
    while let Some((place, others)) = left.split_first() {
        put_place(names, *place, output)?;
        left = others;
    }
    Ok(())
}

// Prints the network of a place, if it has one.
fn put_place<A: Address, W: Write>(
    names: &SetNames<'_>,
    place: Option<Network<A>>,
    output: &mut Output<'_, W>,
) -> Result<(), RunFault> {
    match place {
        Some(network) => put_network(names, network, output),
        None => Ok(()),
    }
}
