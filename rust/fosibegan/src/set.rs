//! Sets of addresses.

mod address_set;
mod addresses;
mod builder;
mod count;
mod free;
mod frozen;
mod in_order;
mod lazy;
mod networks;
mod operators;
#[cfg(feature = "proptest")]
mod proptest;
mod questions;
mod ranges;
#[cfg(feature = "serde")]
mod serde;
mod symmetric;
mod traits;

pub use address_set::AddressSet;
pub use addresses::Addresses;
pub use builder::AddressSetBuilder;
pub use count::AddressCount;
pub use free::FreeIn;
pub use frozen::FrozenSet;
pub use lazy::{Complement, Difference, Intersection, Union};
pub use networks::{IntoNetworks, Networks};
pub use ranges::Ranges;
pub use symmetric::SymmetricDifference;
