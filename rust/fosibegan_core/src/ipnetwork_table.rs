// Written by scripts/plain out of crates/ipnetwork_table/src/lib.rt

//! Routing tables: maps from blocks of IP addresses to values, searched by longest prefix (RFC
//! 4632, section 5.1), for networks of either family.
//!
//! Only `insert` allocates.

mod common_bits;
mod counts;
mod entries;
mod lookups;
mod table;

pub use entries::Entries;
pub use table::PrefixTable;
