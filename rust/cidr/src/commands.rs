// Written by scripts/plain out of crates/cidr/src/commands.rt

//! The answers of the commands.

pub(crate) mod ends;
pub(crate) mod has;
pub(crate) mod read;
mod reading;
pub(crate) mod rel;
pub(crate) mod routing;

/// The answer to a text that names no network or no address, if no cause is given.
pub(crate) const REFUSED: &str = "refused";
