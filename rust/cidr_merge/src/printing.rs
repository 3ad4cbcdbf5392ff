// Written by scripts/plain out of crates/cidr_merge/src/printing.rt

//! Prints the result of a merge.

use crate::command_line::{Form, Operation, Request};
use crate::counts::{CountText, Counts};
use crate::exporting::print_export;
use crate::merge_join::{MergeJoin, Side};
use crate::reading::Sets;
use crate::set_names::SetNames;
use crate::side_parts::{Parts, sign_of};
use crate::sweep::Sweep;
use fosibegan_core::ipnetwork::{Address, Network};
use fosibegan_core::ipnetwork_sets::{AddressSet, Ranges};
use cidr_programs::lines::fault::RunFault;
use cidr_programs::lines::output::Output;
use cidr_programs::program::putting::put_all;
use fosibegan_core::plain_std::io::Write;

/// A request, and the addresses read from the lists of its sides.
pub(crate) struct Merging<'a> {
    /// The request.
    pub request: Request,
    /// The names of the sets of an export, and the texts around each line.
    pub sets: &'a SetNames<'a>,
    /// The addresses of the first side.
    pub first: &'a Sets,
    /// The addresses of the second side.
    pub second: &'a Sets,
}

/// Prints the result of the operation on the two sides.
pub(crate) fn print<W: Write>(
    merging: &Merging<'_>,
    output: &mut Output<'_, W>,
) -> Result<(), RunFault> {
    match merging.request.form {
        Form::Blocks => print_blocks(merging, output),
        Form::Ranges => print_ranges(merging, output),
        Form::Counts => print_counts(merging, output),
        Form::Exported(export) => {
            let operation = merging.request.operation;
            let v4 = Sweep::of(operation, &merging.first.v4, &merging.second.v4);
            let v6 = Sweep::of(operation, &merging.first.v6, &merging.second.v6);
            print_export(export, merging.sets, v4, v6, output)
        }
    }
}

// Prints the result as blocks. All of it is known before the first is printed.
fn print_blocks<W: Write>(merging: &Merging<'_>, output: &mut Output<'_, W>) -> Result<(), RunFault> {
    let operation = merging.request.operation;
    let first = merging.first;
    let second = merging.second;
    let v4 = Sweep::of(operation, &first.v4, &second.v4);
    let v4_others = Sweep::of(Operation::Minus, &second.v4, &first.v4);
    let v6 = Sweep::of(operation, &first.v6, &second.v6);
    let v6_others = Sweep::of(Operation::Minus, &second.v6, &first.v6);
    print_parts(merging.sets, operation, v4, v4_others, output)?;
    print_parts(merging.sets, operation, v6, v6_others, output)
}

// Prints the result as ranges.
fn print_ranges<W: Write>(merging: &Merging<'_>, output: &mut Output<'_, W>) -> Result<(), RunFault> {
    let operation = merging.request.operation;
    let first = merging.first;
    let second = merging.second;
    let v4 = ranges_of(operation, &first.v4, &second.v4);
    let v4_others = ranges_of(Operation::Minus, &second.v4, &first.v4);
    let v6 = ranges_of(operation, &first.v6, &second.v6);
    let v6_others = ranges_of(Operation::Minus, &second.v6, &first.v6);
    print_parts(merging.sets, operation, v4, v4_others, output)?;
    print_parts(merging.sets, operation, v6, v6_others, output)
}

// The ranges of the first set's addresses in the result.
fn ranges_of<'a, A: Address>(
    operation: Operation,
    first: &'a AddressSet<Network<A>>,
    second: &'a AddressSet<Network<A>>,
) -> Ranges<Network<A>, Sweep<'a, Network<A>>> {
    let blocks = Sweep::of(operation, first, second);
    Ranges::of(blocks)
}

// Prints the parts of the first side and, for `differ`, those of the second among them.
fn print_parts<P: Parts, W: Write>(
    names: &SetNames<'_>,
    operation: Operation,
    firsts: P,
    seconds: P,
    output: &mut Output<'_, W>,
) -> Result<(), RunFault> {
    let mut parts = MergeJoin::of(operation, firsts, seconds);
    while let Some(next) = parts.next() {
        P::put(names, operation, next.0, next.1, output)?;
    }
    Ok(())
}

// Prints the counts of both families; for `differ`, those of each side.
fn print_counts<W: Write>(merging: &Merging<'_>, output: &mut Output<'_, W>) -> Result<(), RunFault> {
    let operation = merging.request.operation;
    let first = merging.first;
    let second = merging.second;
    let sign = sign_of(operation, Side::First);
    let firsts = counts_of(operation, first, second);
    match operation {
        Operation::Differ => {
            let seconds = counts_of(operation, second, first);
            put_counts(sign, &firsts, output)?;
            put_counts(sign_of(operation, Side::Second), &seconds, output)
        }
        _ => put_counts(sign, &firsts, output),
    }
}

// The texts of the counts of the first side's addresses in the result, for both families.
fn counts_of(operation: Operation, first: &Sets, second: &Sets) -> (CountText, CountText) {
    let v4 = count_of(operation, &first.v4, &second.v4);
    let v6 = count_of(operation, &first.v6, &second.v6);
    (v4, v6)
}

// The text of the counts of the first set's addresses in the result.
fn count_of<A: Address>(
    operation: Operation,
    first: &AddressSet<Network<A>>,
    second: &AddressSet<Network<A>>,
) -> CountText {
    let blocks = Sweep::of(operation, first, second);
    let counts = Counts::of(blocks);
    counts.text()
}

// Prints the lines with the counts of both families, each after a sign.
fn put_counts<W: Write>(
    sign: &str,
    counts: &(CountText, CountText),
    output: &mut Output<'_, W>,
) -> Result<(), RunFault> {
    put_all(
        &[
            sign,
            "v4 ",
            counts.0.as_str(),
            "\n",
            sign,
            "v6 ",
            counts.1.as_str(),
            "\n",
        ],
        output,
    )
}
