// Written by scripts/plain out of crates/ipnetwork_sets/src/lib.rt

//! Sets of IP addresses, as lists of blocks: of one family, IPv4 or IPv6, or of both in one set.
//!
//! Only the calls that return an `AllocError` allocate: they grow the lists that the caller gives,
//! or the set's own.

mod address_count;
mod address_set;
mod address_slice;
mod blocks;
mod changes;
mod check;
mod collecting;
mod common;
mod complement;
mod counting;
mod difference;
mod equality;
mod free_block;
mod free_range;
mod from_ranges;
mod held;
pub mod ip_sets;
mod joining;
mod operations;
mod order;
mod place;
mod ranges;
mod replacing;
mod search;
mod text;
mod union;

pub use address_count::AddressCount;
pub use address_set::AddressSet;
pub use address_slice::AddressSlice;
pub use blocks::{Blocks, SetBlocks};
pub use check::is_address_set;
pub use collecting::collected;
pub use common::Intersection;
pub use difference::Difference;
pub use from_ranges::push_range;
pub use ip_sets::{IpAddressSet, IpBlocks};
pub use ranges::Ranges;
pub use union::Union;
