// Written by scripts/plain out of crates/cidr_merge/src/side_parts.rt

//! The parts of one side that are in an operation's result: blocks, or ranges of addresses.

use crate::command_line::Operation;
use crate::cutting::put_network;
use crate::merge_join::Side;
use crate::set_names::SetNames;
use crate::sweep::Sweep;
use fosibegan_core::ipnetwork::{Address, CidrNetwork, Network};
use fosibegan_core::ipnetwork_sets::{Ranges, SetBlocks};
use cidr_programs::lines::fault::RunFault;
use cidr_programs::lines::output::Output;
use cidr_programs::program::putting::put_all;
use fosibegan_core::plain_std::io::Write;

/// An iterator over parts, in ascending order of their first addresses.
pub(crate) trait Parts {
    /// A part.
    type Part: Copy;

    /// Returns the next part.
    fn next_part(&mut self) -> Option<Self::Part>;

    /// Returns whether the first part begins before the second.
    fn begins_before(first: Self::Part, second: Self::Part) -> bool;

    /// Prints a part of a side on a line.
    fn put<W: Write>(
        names: &SetNames<'_>,
        operation: Operation,
        side: Side,
        part: Self::Part,
        output: &mut Output<'_, W>,
    ) -> Result<(), RunFault>;
}

// Blocks as parts.
impl<'a, A: Address> Parts for Sweep<'a, Network<A>> {
    type Part = Network<A>;

    fn next_part(&mut self) -> Option<Network<A>> {
        self.next_block()
    }

    fn begins_before(first: Network<A>, second: Network<A>) -> bool {
        first.ip() < second.ip()
    }

    fn put<W: Write>(
        names: &SetNames<'_>,
        operation: Operation,
        side: Side,
        block: Network<A>,
        output: &mut Output<'_, W>,
    ) -> Result<(), RunFault> {
        output.put(sign_of(operation, side).as_bytes())?;
        put_network(names, block, output)
    }
}

// Ranges as parts: the first and the last address of each.
impl<'a, A: Address> Parts for Ranges<Network<A>, Sweep<'a, Network<A>>> {
    type Part = (A, A);

    fn next_part(&mut self) -> Option<(A, A)> {
        self.next()
    }

    fn begins_before(first: (A, A), second: (A, A)) -> bool {
        first.0 < second.0
    }

    fn put<W: Write>(
        names: &SetNames<'_>,
        operation: Operation,
        side: Side,
        range: (A, A),
        output: &mut Output<'_, W>,
    ) -> Result<(), RunFault> {
        output.put(sign_of(operation, side).as_bytes())?;
        put_range(names, range, output)
    }
}

// Prints a range on a line.
fn put_range<A: Address, W: Write>(
    names: &SetNames<'_>,
    range: (A, A),
    output: &mut Output<'_, W>,
) -> Result<(), RunFault> {
    let (first, last) = (range.0.canonical(), range.1.canonical());
    put_all(
        &[
            names.before,
            first.as_str(),
            " - ",
            last.as_str(),
            names.after,
            "\n",
        ],
        output,
    )
}

/// Returns the text before a part of a side.
pub(crate) fn sign_of(operation: Operation, side: Side) -> &'static str {
    match operation {
        Operation::Differ => match side {
            Side::First => "< ",
            Side::Second => "> ",
        },
        _ => "",
    }
}
