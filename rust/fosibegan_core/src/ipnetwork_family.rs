// Written by scripts/plain out of crates/ipnetwork_family/src/lib.rt

//! Networks of one family in CIDR notation (RFC 4632, section 3.1): parsing, printing, and queries
//! about the set of addresses that a network represents.
//!
//! Only calls that take an allocator allocate. A text is any slice of bytes.

mod address;
mod cidr_network;
mod error;
mod ipv4;
mod ipv6;
mod iter;
#[cfg(feature = "serde")]
mod json;
mod mask_table;
mod network;
pub mod parse;
mod segments;

pub use address::Address;
pub use cidr_network::CidrNetwork;
pub use error::{CidrFault, IpNetworkError, NetworkSizeError};
use crate::ipnetwork_addr::{Ipv4Addr, Ipv6Addr};
pub use ipv4::ipv4_mask_to_prefix;
pub use ipv6::ipv6_mask_to_prefix;
pub use iter::NetworkIterator;
#[cfg(feature = "serde")]
pub use json::JsonFault;
pub use network::Network;

/// An IPv4 network.
///
/// ```
/// # use fosibegan_core::in_examples::*;
/// # ended(|| {
/// let network: Ipv4Network = "10.1.9.32/255.0.0.0".parse()?;
/// assert_eq!(network.canonical().as_str(), "10.1.9.32/8");
/// # Ok(())
/// # });
/// ```
pub type Ipv4Network = Network<Ipv4Addr>;

/// An IPv6 network.
///
/// ```
/// # use fosibegan_core::in_examples::*;
/// # ended(|| {
/// let network: Ipv6Network = "2001:DB8::1/064".parse()?;
/// assert_eq!(network.canonical().as_str(), "2001:db8::1/64");
/// # Ok(())
/// # });
/// ```
pub type Ipv6Network = Network<Ipv6Addr>;

/// An iterator over the members of an IPv4 network, in ascending order.
///
/// ```
/// # use fosibegan_core::in_examples::*;
/// # ended(|| {
/// let members: Ipv4NetworkIterator = "192.0.2.0/24".parse::<Ipv4Network>()?.iter();
/// assert_eq!(members.count(), 256);
/// # Ok(())
/// # });
/// ```
pub type Ipv4NetworkIterator = NetworkIterator<Ipv4Addr>;

/// An iterator over the members of an IPv6 network, in ascending order.
///
/// ```
/// # use fosibegan_core::in_examples::*;
/// # ended(|| {
/// let members: Ipv6NetworkIterator = "2001:db8::/120".parse::<Ipv6Network>()?.iter();
/// assert_eq!(members.count(), 256);
/// # Ok(())
/// # });
/// ```
pub type Ipv6NetworkIterator = NetworkIterator<Ipv6Addr>;

/// The length in bytes of the longest printed network, one of IPv6.
///
/// ```
/// # use fosibegan_core::in_examples::*;
/// # ended(|| {
/// let longest: Ipv6Network = "ffff:ffff:ffff:ffff:ffff:ffff:ffff:ffff/128".parse()?;
/// assert_eq!(longest.canonical().as_str().len(), NETWORK_TEXT_CAPACITY);
/// # Ok(())
/// # });
/// ```
pub const NETWORK_TEXT_CAPACITY: usize = 43;
