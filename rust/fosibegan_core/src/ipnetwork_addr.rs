// Written by scripts/plain out of crates/ipnetwork_addr/src/lib.rt

//! IPv4 and IPv6 addresses: reading and printing their texts, and their numbers.
//!
//! Nothing here allocates. A text is a byte slice of any length and content.

mod canonical;
mod colons;
mod colons_at_once;
pub mod decimal;
mod decimal_value;
mod digit_lanes;
mod error;
pub mod first_mark;
mod group;
mod hex_value;
mod hexadecimal;
mod ip;
mod ipv4;
mod ipv6;
mod ipv6_order;
mod octet;
mod octet_lanes;
mod octet_tables;
mod segments;

pub use error::AddrParseError;
pub use ip::IpAddr;
pub use ipv4::Ipv4Addr;
pub use ipv6::Ipv6Addr;

/// The length in bytes of the longest canonical address text: eight groups of four hex digits.
///
/// ```
/// # use fosibegan_core::in_examples::*;
/// # ended(|| {
/// let longest: Ipv6Addr = "ffff:ffff:ffff:ffff:ffff:ffff:ffff:ffff".parse()?;
/// assert_eq!(longest.canonical().as_str().len(), ADDRESS_TEXT_CAPACITY);
/// # Ok(())
/// # });
/// ```
pub const ADDRESS_TEXT_CAPACITY: usize = 39;
