// Written by scripts/plain out of crates/program/src/memory.rt

//! Reports that memory ran out.

use crate::program::ending::FAILED;
use crate::program::messages::tell_of;
use crate::lines::output::Output;
use fosibegan_core::plain_std::io::Write;

/// Reports in the name of a program that memory ran out, and returns the exit status for that, 2.
///
/// ```
/// # use cidr_programs::in_examples::*;
/// let mut slice = [0; 64];
/// let mut errors = cidr_programs::lines::output::Output::new(Vec::new(Global), &mut slice);
/// assert_eq!(cidr_programs::program::memory::refuse_memory("sum", &mut errors), 2);
/// ```
pub fn refuse_memory<E: Write>(program: &str, errors: &mut Output<'_, E>) -> u8 {
    tell_of(program, ": out of memory\n", errors);
    FAILED
}
