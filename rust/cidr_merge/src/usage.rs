// Written by scripts/plain out of crates/cidr_merge/src/usage.rt

//! Prints how much of each network of pools is used.

use crate::command_line::FreeRequest;
use crate::counts::count_text;
use crate::help::PROGRAM;
use crate::reading::Sets;
use crate::reduce::is_any;
use crate::set_names::SetNames;
use crate::share::share;
use crate::split::status;
use cidr_programs::allotting::used_counts;
use fosibegan_core::ipnetwork::{Address, CidrNetwork, Ipv4Network, Ipv6Network, Network};
use fosibegan_core::ipnetwork_sets::AddressCount;
use cidr_programs::lines::fault::RunFault;
use cidr_programs::lines::output::Output;
use cidr_programs::program::ending::{FAILED, end};
use cidr_programs::program::memory::refuse_memory;
use cidr_programs::program::messages::tell_of;
use cidr_programs::program::putting::put_all;
use fosibegan_core::plain_std::alloc::Global;
use fosibegan_core::plain_std::io::Write;

/// Prints how much of each network of the pools is used, unless there are no pools, or no address
/// of a family of theirs is used, and returns the exit status.
pub(crate) fn print_usage<W: Write, E: Write>(
    alloc: Global,
    request: &FreeRequest,
    names: &SetNames<'_>,
    skips: bool,
    pools: &Sets,
    used: &Sets,
    output: &mut Output<'_, W>,
    errors: &mut Output<'_, E>,
) -> u8 {
    if lacks_used(pools, used) && !request.merge.allows_empty {
        tell_of(PROGRAM, LACKING, errors);
        return FAILED;
    }
    let (Ok(v4), Ok(v6)) = (
        used_counts(alloc, &pools.v4, &used.v4),
        used_counts(alloc, &pools.v6, &used.v6),
    ) else {
        return refuse_memory(PROGRAM, errors);
    };
    let written = write_usage(names, v4.as_slice(), v6.as_slice(), output);
    let status = status(skips);
    end(PROGRAM, written, status, errors)
}

// The message if there are no pools, or no address is used.
const LACKING: &str = ": the FILEs before the -- have no address, or those after it none of a \
    family of theirs: see --allow-empty\n";

// Whether there are no pools, or pools of a family of which no address is used.
fn lacks_used(pools: &Sets, used: &Sets) -> bool {
    let (v4, v6) = (is_any(&pools.v4), is_any(&pools.v6));
    v4 && !is_any(&used.v4) || v6 && !is_any(&used.v6) || !v4 && !v6
}

// Writes the lines of both families.
fn write_usage<W: Write>(
    names: &SetNames<'_>,
    v4: &[(Ipv4Network, AddressCount)],
    v6: &[(Ipv6Network, AddressCount)],
    output: &mut Output<'_, W>,
) -> Result<(), RunFault> {
    put_lines(names, v4, output)?;
    put_lines(names, v6, output)?;
    output.finish()
}

// Prints a line for each network of the pools of a family.
fn put_lines<A: Address, W: Write>(
    names: &SetNames<'_>,
    usage: &[(Network<A>, AddressCount)],
    output: &mut Output<'_, W>,
) -> Result<(), RunFault> {
    let mut left = usage;
    while let Some((one, others)) = left.split_first() {
        put_usage(names, one.0, one.1, output)?;
        left = others;
    }
    Ok(())
}

// Prints the line of a network of which so many addresses are used.
fn put_usage<A: Address, W: Write>(
    names: &SetNames<'_>,
    network: Network<A>,
    used: AddressCount,
    output: &mut Output<'_, W>,
) -> Result<(), RunFault> {
    let host_bits = A::WIDTH - network.prefix();
    let free = count_left(used, host_bits);
    put_all(
        &[
            names.before,
            network.canonical().as_str(),
            " ",
            count_text(used).as_str(),
            " ",
            count_text(free).as_str(),
            " ",
            share(used, host_bits).as_str(),
            names.after,
            "\n",
        ],
        output,
    )
}

// The number of addresses of a network with so many host bits that are not used.
fn count_left(used: AddressCount, host_bits: u8) -> AddressCount {
    let AddressCount::Number(number) = used else {
        return AddressCount::ZERO;
    };
    if host_bits < 128 {
        AddressCount::Number((1 << host_bits) - number)
    } else if number == 0 {
        AddressCount::AllOfIpv6
    } else {
        AddressCount::Number(u128::MAX - number + 1)
    }
}
