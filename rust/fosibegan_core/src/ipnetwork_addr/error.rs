// Written by scripts/plain out of crates/ipnetwork_addr/src/error.rt

//! The error of reading an address.

use core::error::Error;
use core::fmt;

/// The error for a text that names no address. It says which kind of address was expected, but not
/// where the text is wrong.
///
/// ```
/// # use fosibegan_core::in_examples::*;
/// # ended(|| {
/// assert_eq!(Ipv4Addr::read_bytes(b"192.0.2.01"), Err(AddrParseError::Ipv4));
/// let text = AddrParseError::Ipv4.kit_to_string(Global)?;
/// assert_eq!(text.as_str(), "invalid IPv4 address syntax");
/// # Ok(())
/// # });
/// ```
#[derive(Clone, Copy, Debug, PartialEq, Eq)]
pub enum AddrParseError {
    /// The text names no IPv4 address.
    Ipv4,
    /// The text names no IPv6 address.
    Ipv6,
    /// The text names no address of either family.
    Ip,
}

impl fmt::Display for AddrParseError {
    fn fmt(&self, f: &mut fmt::Formatter<'_>) -> fmt::Result {
        f.write_str(match self {
            AddrParseError::Ipv4 => "invalid IPv4 address syntax",
            AddrParseError::Ipv6 => "invalid IPv6 address syntax",
            AddrParseError::Ip => "invalid IP address syntax",
        })
    }
}

impl Error for AddrParseError {}
