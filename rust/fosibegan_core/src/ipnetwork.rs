// Written by scripts/plain out of crates/ipnetwork/src/lib.rt

//! IPv4 and IPv6 networks in CIDR notation: reading and printing them, and questions about their
//! sets of addresses.
//!
//! Only calls that take an allocator allocate.
//!
//! This crate re-exports at its root the crates `ipnetwork_addr`, for addresses, and
//! `ipnetwork_family`, for networks of one family.

mod error;
mod ip_iter;
mod ip_mask;
mod ip_network;
#[cfg(feature = "serde")]
mod json;
mod refusal;
mod size;

pub use error::WrongFamily;
pub use ip_iter::IpNetworkIterator;
pub use ip_mask::ip_mask_to_prefix;
pub use ip_network::IpNetwork;
pub use crate::ipnetwork_addr::{
    ADDRESS_TEXT_CAPACITY, AddrParseError, IpAddr, Ipv4Addr, Ipv6Addr, decimal,
};
pub use crate::ipnetwork_family::{
    Address, CidrFault, CidrNetwork, IpNetworkError, Ipv4Network, Ipv4NetworkIterator, Ipv6Network,
    Ipv6NetworkIterator, NETWORK_TEXT_CAPACITY, Network, NetworkIterator, NetworkSizeError,
    ipv4_mask_to_prefix, ipv6_mask_to_prefix, parse,
};
#[cfg(feature = "serde")]
pub use crate::ipnetwork_family::JsonFault;
pub use refusal::cause;
pub use size::NetworkSize;
