#[cfg(not(feature = "std"))]
pub use rust_alloc::collections::*;
#[cfg(feature = "std")]
pub use ::std::collections::*;
pub use crate::plain_std::tree::BTreeMap;

pub mod btree_map {
    pub use crate::plain_std::tree::Iter;
}

#[cfg(feature = "std")]
pub use hashes::{HashMap, HashSet};

#[cfg(feature = "std")]
#[path = "hashes.rs"]
mod hashes;
