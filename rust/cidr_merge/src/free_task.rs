// Written by scripts/plain out of crates/cidr_merge/src/free_task.rt

//! What a `free` prints.

use crate::rows::{HOSTS, USAGE};
use cidr_programs::options::given::is_given;
use cidr_programs::options::items::Item;

/// What is printed of pools.
#[derive(Clone, Copy, Debug, PartialEq, Eq)]
pub enum FreeTask {
    /// Free networks of one prefix length.
    Blocks,
    /// A free network for each of several numbers of hosts.
    Places,
    /// How much of each network is used.
    Usage,
}

/// Returns what a `free` prints by these options.
pub(crate) fn free_task_of(items: &[Item<'_>]) -> FreeTask {
    if is_given(items, HOSTS) {
        FreeTask::Places
    } else if is_given(items, USAGE) {
        FreeTask::Usage
    } else {
        FreeTask::Blocks
    }
}
