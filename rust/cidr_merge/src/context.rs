// Written by scripts/plain out of crates/cidr_merge/src/context.rt

//! The inputs of a run.

use fosibegan_core::plain_std::string::String;
use crate::set_names::SetNames;
use fosibegan_core::plain_std::alloc::Global;

/// The inputs of a run, without its outputs.
pub(crate) struct Context<'a, L> {
    /// The allocator.
    pub alloc: Global,
    /// The names of the lists; for a `find`, the addresses and then the names of the lists.
    pub names: &'a [String],
    /// The lists that the run can open.
    pub lists: &'a L,
    /// The names of the sets that an export fills, and the texts around each line.
    pub sets: &'a SetNames<'a>,
}
