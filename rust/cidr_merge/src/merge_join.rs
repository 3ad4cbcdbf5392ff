// Written by scripts/plain out of crates/cidr_merge/src/merge_join.rt

//! The result of an operation on two sides, as one ascending list of parts.

use crate::command_line::Operation;
use crate::side_parts::Parts;

/// A side of an operation.
#[derive(Clone, Copy, Debug, PartialEq, Eq)]
pub(crate) enum Side {
    First,
    Second,
}

/// The parts of two sides that are still to come.
pub(crate) struct MergeJoin<P: Parts> {
    first: Option<P::Part>,
    firsts: P,
    second: Option<P::Part>,
    seconds: P,
}

impl<P: Parts> MergeJoin<P> {
    /// Merges the parts of the first side and, only for `differ`, those of the second.
    pub(crate) fn of(operation: Operation, mut firsts: P, mut seconds: P) -> MergeJoin<P> {
        let first = firsts.next_part();
        let second = first_of_second(operation, &mut seconds);
        MergeJoin {
            first,
            firsts,
            second,
            seconds,
        }
    }

    /// Removes and returns the part that begins first, with its side.
    pub(crate) fn next(&mut self) -> Option<(Side, P::Part)> {
        let Some(first) = self.first else {
            let second = self.second?;
            return Some(self.next_of_second(second));
        };
        let Some(second) = self.second else {
            return Some(self.next_of_first(first));
        };
        if P::begins_before(first, second) {
            Some(self.next_of_first(first))
        } else {
            Some(self.next_of_second(second))
        }
    }

    // Returns this part, the next one of the first side, and moves on to the one after it.
    fn next_of_first(&mut self, part: P::Part) -> (Side, P::Part) {
        self.first = self.firsts.next_part();
        (Side::First, part)
    }

    // Returns this part, the next one of the second side, and moves on to the one after it.
    fn next_of_second(&mut self, part: P::Part) -> (Side, P::Part) {
        self.second = self.seconds.next_part();
        (Side::Second, part)
    }
}

// Returns the first part of the second side that the operation prints.
fn first_of_second<P: Parts>(operation: Operation, seconds: &mut P) -> Option<P::Part> {
    match operation {
        Operation::Union => None,
        Operation::Common => None,
        Operation::Minus => None,
        Operation::Differ => seconds.next_part(),
    }
}
