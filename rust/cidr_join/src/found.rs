// Written by scripts/plain out of crates/cidr_join/src/found.rt

//! What is found for the address or network of a line.

use crate::value::Value;
use fosibegan_core::ipnetwork::IpNetwork;

/// What is found, and printed, for the address or network of a line.
#[derive(Clone, Copy, Debug)]
pub enum Found<'a> {
    /// The network or block that contains it.
    Network(IpNetwork),
    /// The value of the network that contains it.
    Value(Value<'a>),
    /// Nothing, printed as a minus sign: no network contains it, or the line has no address.
    Nothing,
}
