// Written by scripts/plain out of crates/ipnetwork_c/src/lib.rt

//! The library for C: functions for networks of either family that C can call.
//!
//! Nothing here allocates. A call that is given a struct whose prefix length is greater than the
//! width returns `PREFIX`, or `NO_FAMILY` if the family is wrong too. The exceptions are searches:
//! in a set or a table they do not check every struct, and in ranges no prefix length. A call that
//! returns a fault writes nothing, except for the length or number that comes with `SHORT_BUFFER`.
#![no_std]

mod lent;
mod without_std;
mod address;
mod aggregates;
mod block_calls;
mod build;
mod column_calls;
mod columns;
mod either;
mod fault;
mod guesses;
mod halves;
mod index_making;
mod ipv4_in_c;
mod ipv6_in_c;
mod list_calls;
mod listed;
mod making_calls;
mod network_calls;
mod numbered;
mod order;
mod printed_columns;
mod questions;
mod range_making;
mod ranges;
mod search_columns;
mod search_hint;
mod set_operations;
mod sets;
mod sizes;
mod structs;
mod table_making;
mod tables;
mod text;
mod text_columns;
mod upper_bound;
mod writing;

pub use address::AddressInC;
pub use structs::{IpInC, IpWithCauseInC, Ipv4InC, Ipv6InC, PlaceInC};

/// Returns the version of what C relies on: the names, the structs and the numbers. A change of any
/// of them changes the version.
#[inline]
pub fn ipnetwork_abi_version() -> u32 {
    4
}

const _: () = {
    #[export_name = "ipnetwork_abi_version"]
    extern "C" fn called() -> u32 {
        ipnetwork_abi_version()
    }
};

/// Returns the minor version: each added call raises it, and a change of `ipnetwork_abi_version`
/// resets it to 0.
#[inline]
pub fn ipnetwork_abi_minor_version() -> u32 {
    0
}

const _: () = {
    #[export_name = "ipnetwork_abi_minor_version"]
    extern "C" fn called() -> u32 {
        ipnetwork_abi_minor_version()
    }
};
