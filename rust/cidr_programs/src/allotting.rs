// Written by scripts/plain out of crates/allotting/src/lib.rt

//! The free blocks of a pool of addresses: those of one length, in ascending order, and places for
//! blocks of several lengths, which may be those of enough hosts; and how much of it is used.

mod free;
mod hosts;
mod placed;
mod usage;

pub use free::{FreeBlocks, free_blocks};
pub use hosts::{length_for, lengths_for};
pub use placed::places;
pub use usage::used_counts;
