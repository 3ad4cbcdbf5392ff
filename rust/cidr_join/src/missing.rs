// Written by scripts/plain out of crates/cidr_join/src/missing.rt

//! Whether a log or a line was missed.

use cidr_programs::program::ending::FAILED;

/// Returns whether one of the two is true.
pub(crate) fn either(first: bool, second: bool) -> bool {
    first || second
}

/// Returns the exit status; `missed` says whether a log or a line was missed.
pub(crate) fn status(missed: bool) -> u8 {
    if missed { FAILED } else { 0 }
}
