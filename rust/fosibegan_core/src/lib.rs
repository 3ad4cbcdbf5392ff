//! The implementation of the crate `fosibegan`. **Use that one:** it has these networks, sets and tables over the addresses
//! of `std::net`, with the traits and conversions of Rust's standard library.
//!
//! Here they are as a script writes them of proved sources: each module below but [`plain_std`] is a crate of which every
//! function is proved to meet its contract, without the contracts and what is only for proofs. What is left is tested.
//! Names here may change with any version. What allocates takes [`plain_std::alloc::Global`], and returns an `AllocError` if
//! there is no memory.
//!
//! ```
//! use fosibegan_core::plain_std::alloc::Global;
//! use fosibegan_core::{Ipv4Network, PrefixTable};
//!
//! # fosibegan_core::in_examples::ended(|| {
//! let network: Ipv4Network = "10.1.9.32/8".parse()?;
//! assert!(network.contains("10.255.255.255".parse()?));
//!
//! let mut table = PrefixTable::new(Global);
//! table.insert(network, "inside")?;
//! assert_eq!(table.lookup("10.1.2.3".parse()?), Some(("10.0.0.0/8".parse()?, "inside")));
//! # Ok(())
//! # });
//! ```
#![no_std]
#![deny(unsafe_code)]
// The sources have the forms that their proofs need.
#![allow(unused_imports, unused_labels, unused_variables, dead_code)]
#![allow(clippy::complexity, clippy::style, clippy::large_enum_variant, clippy::non_canonical_clone_impl)]

extern crate alloc as rust_alloc;
#[cfg(feature = "std")]
extern crate std;

/// Items that are there only if this library does not link std.
#[doc(hidden)]
#[macro_export]
#[cfg(not(feature = "std"))]
macro_rules! without_std {
    ($($item:item)*) => { $($item)* };
}
#[doc(hidden)]
#[macro_export]
#[cfg(feature = "std")]
macro_rules! without_std {
    ($($item:item)*) => {};
}

#[doc(hidden)]
pub mod byte_search;
pub mod ipnetwork;
pub mod ipnetwork_addr;
pub mod ipnetwork_blocks;
pub mod ipnetwork_family;
pub mod ipnetwork_index;
pub mod ipnetwork_sets;
pub mod ipnetwork_table;
pub mod plain_std;

pub use ipnetwork::*;
pub use ipnetwork_blocks::*;
pub use ipnetwork_index::*;
pub use ipnetwork_sets::*;
pub use ipnetwork_table::*;

/// What the examples have in scope.
#[doc(hidden)]
pub mod in_examples {
    pub use crate::plain_std::alloc::Global;
    #[cfg(feature = "std")]
    pub use crate::plain_std::rt::HostRuntime;
    #[cfg(feature = "serde")]
    pub use crate::plain_std::serde_json::{self, OfKit as _};
    pub use crate::plain_std::string::{String, ToString as _};
    pub use crate::plain_std::test::{Fail, ended};
    pub use crate::plain_std::vec::{Concat, ToVec, Vec};
    pub use crate::plain_std::{KitClone, format, vec};
    pub use crate::{byte_search::*, ipnetwork_addr::*, ipnetwork_family::*, *};
}
