// Written by scripts/plain out of crates/cidr_merge/src/sweep.rt

//! The blocks of one side that are in an operation's result.

use crate::command_line::Operation;
use fosibegan_core::ipnetwork_blocks::AddressSpace;
use fosibegan_core::ipnetwork_sets::{AddressSet, Blocks, Difference, Intersection, SetBlocks};

/// An iterator over blocks, in ascending order.
pub(crate) enum Sweep<'a, N: AddressSpace> {
    Whole(Blocks<'a, N>),
    Common(Intersection<'a, N>),
    Alone(Difference<'a, N>),
}

impl<'a, N: AddressSpace> Sweep<'a, N> {
    /// Returns the first set's blocks in the result of an operation; for a union, all of them.
    pub(crate) fn of(
        operation: Operation,
        first: &'a AddressSet<N>,
        second: &'a AddressSet<N>,
    ) -> Sweep<'a, N> {
        match operation {
            Operation::Union => {
                // The clause `set` of this call's contract says that these are the blocks of a set.
                let _ = first.blocks();
                let whole = first.iter();
                Sweep::Whole(whole)
            }
            Operation::Common => {
                let common = first.intersection(second);
                Sweep::Common(common)
            }
            _ => {
                let alone = first.difference(second);
                Sweep::Alone(alone)
            }
        }
    }
}

impl<'a, N: AddressSpace> SetBlocks<N> for Sweep<'a, N> {
    fn next_block(&mut self) -> Option<N> {
        match self {
            Sweep::Whole(blocks) => blocks.next_block(),
            Sweep::Common(blocks) => blocks.next_block(),
            Sweep::Alone(blocks) => blocks.next_block(),
        }
    }
}
