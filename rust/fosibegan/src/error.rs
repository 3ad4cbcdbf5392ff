//! Why a call fails.

use alloc::string::{String, ToString as _};
use core::error::Error;
use core::fmt;
use core::net::AddrParseError;

/// An error which can be returned when a network is read from text or made from parts.
///
/// # Examples
///
/// ```
/// use fosibegan::{IpNetworkError, Ipv4Network};
///
/// let error = "10.0.0.0/33".parse::<Ipv4Network>().unwrap_err();
/// assert_eq!(error, IpNetworkError::InvalidPrefix);
/// assert_eq!(error.to_string(), "invalid prefix");
/// ```
#[derive(Clone, Debug, PartialEq, Eq, Hash)]
#[non_exhaustive]
pub enum IpNetworkError {
    /// The text before the `/` is not an address. For [`Ipv4Network`](crate::Ipv4Network) and
    /// [`Ipv6Network`](crate::Ipv6Network) the string tells the family of the address; for
    /// [`IpNetwork`](crate::IpNetwork) it is the whole text, whatever is wrong with it.
    InvalidAddr(String),
    /// The prefix length is missing, is not a number or is too great, or the mask is not some ones
    /// followed by zeros.
    InvalidPrefix,
    /// There is more than one `/` in the text, which the string repeats.
    InvalidCidrFormat(String),
    /// A size does not fit. No call of this crate returns this.
    NetworkSizeError(NetworkSizeError),
}

impl fmt::Display for IpNetworkError {
    fn fmt(&self, f: &mut fmt::Formatter<'_>) -> fmt::Result {
        match self {
            Self::InvalidAddr(text) => write!(f, "invalid address: {text}"),
            Self::InvalidPrefix => f.write_str("invalid prefix"),
            Self::InvalidCidrFormat(text) => write!(f, "invalid cidr format: {text}"),
            Self::NetworkSizeError(error) => write!(f, "network size error: {error}"),
        }
    }
}

impl Error for IpNetworkError {
    fn description(&self) -> &str {
        match self {
            Self::InvalidAddr(_) => "address is invalid",
            Self::InvalidPrefix => "prefix is invalid",
            Self::InvalidCidrFormat(_) => "cidr is invalid",
            Self::NetworkSizeError(_) => "network size error",
        }
    }
}

impl From<AddrParseError> for IpNetworkError {
    fn from(error: AddrParseError) -> Self {
        Self::InvalidAddr(error.to_string())
    }
}

/// The error which is returned when a [`NetworkSize`](crate::NetworkSize) is converted to a number
/// of 32 bits.
///
/// # Examples
///
/// ```
/// use fosibegan::{NetworkSize, NetworkSizeError};
///
/// let error = u32::try_from(NetworkSize::V6(1)).unwrap_err();
/// assert_eq!(error, NetworkSizeError::NetworkIsTooLarge);
/// ```
#[derive(Clone, Copy, Debug, PartialEq, Eq, Hash)]
#[non_exhaustive]
pub enum NetworkSizeError {
    /// The size is that of an IPv6 network, however small.
    NetworkIsTooLarge,
}

impl fmt::Display for NetworkSizeError {
    fn fmt(&self, f: &mut fmt::Formatter<'_>) -> fmt::Result {
        f.write_str("Network is too large to fit into an unsigned 32-bit integer!")
    }
}

impl Error for NetworkSizeError {}

/// The error which is returned when an [`IpNetwork`](crate::IpNetwork) is converted to a network of
/// the other family.
///
/// # Examples
///
/// ```
/// use fosibegan::{IpNetwork, Ipv4Network};
///
/// let network: IpNetwork = "2001:db8::/32".parse()?;
/// let error = Ipv4Network::try_from(network).unwrap_err();
/// assert_eq!(error.to_string(), "the network is of the other address family");
/// # Ok::<(), Box<dyn std::error::Error>>(())
/// ```
#[derive(Clone, Copy, Debug, PartialEq, Eq, Hash)]
pub struct WrongFamilyError(());

impl WrongFamilyError {
    pub(crate) const fn new() -> Self {
        Self(())
    }
}

impl fmt::Display for WrongFamilyError {
    fn fmt(&self, f: &mut fmt::Formatter<'_>) -> fmt::Result {
        f.write_str("the network is of the other address family")
    }
}

impl Error for WrongFamilyError {}
