// Written by scripts/plain out of crates/ipnetwork_family/src/error.rt

//! Why a text or a prefix length is refused.

use crate::plain_std::string::String;
use crate::ipnetwork_addr::AddrParseError;
use crate::plain_std::alloc::{AllocError, Global};
use core::error::Error;
use core::fmt;

/// Why a text is refused, without the text. If several variants apply, it is the first of them.
///
/// `IpNetwork`, which reads networks of either family, returns `Addr` for every text that it refuses.
///
/// ```
/// # use fosibegan_core::in_examples::*;
/// assert_eq!("10.0.0.0//8".parse::<Ipv4Network>(), Err(CidrFault::Format));
/// assert_eq!("10/8".parse::<Ipv4Network>(), Err(CidrFault::Addr));
/// assert_eq!("10.0.0.0/33".parse::<Ipv4Network>(), Err(CidrFault::Prefix));
/// ```
#[derive(Clone, Copy, Debug, PartialEq, Eq)]
pub enum CidrFault {
    /// The text contains two or more `/`.
    Format,
    /// The part before the `/`, or the whole text if there is no `/`, is not an address.
    Addr,
    /// The part after the `/` is neither a prefix length nor a mask.
    Prefix,
}

/// Why a network is refused. `InvalidAddr` and `InvalidCidrFormat` carry a text.
///
/// ```
/// # use fosibegan_core::in_examples::*;
/// let address = Ipv4Addr::new(10, 0, 0, 0);
/// assert_eq!(Ipv4Network::new(address, 33), Err(IpNetworkError::InvalidPrefix));
/// ```
#[derive(Debug, PartialEq, Eq)]
pub enum IpNetworkError {
    /// The part before the `/`, or the whole text if there is no `/`, is not an address. From
    /// `IpNetwork`: the text names no network, for any cause.
    InvalidAddr(String),
    /// The prefix length is greater than the number of bits of an address, the part after the `/`
    /// does not give one, or the address given as a mask is not one of its family's masks.
    InvalidPrefix,
    /// The text contains two or more `/`.
    InvalidCidrFormat(String),
    /// A size does not fit. Only `try_clone` of such an error returns it.
    NetworkSizeError(NetworkSizeError),
    /// There is no memory for the text of an error. Never returned in place of a network or of
    /// `InvalidPrefix`.
    OutOfMemory,
}

/// Why a size is refused.
///
/// ```
/// # use fosibegan_core::in_examples::*;
/// # ended(|| {
/// let text = NetworkSizeError::NetworkIsTooLarge.kit_to_string(Global)?;
/// assert_eq!(text.as_str(), "Network is too large to fit into an unsigned 32-bit integer!");
/// # Ok(())
/// # });
/// ```
#[derive(Clone, Copy, Debug, PartialEq, Eq)]
pub enum NetworkSizeError {
    /// The size does not fit in 32 bits.
    NetworkIsTooLarge,
}

impl IpNetworkError {
    /// A short description of the kind of error, without its text.
    ///
    /// ```
    /// # use fosibegan_core::in_examples::*;
    /// assert_eq!(IpNetworkError::InvalidPrefix.description(), "prefix is invalid");
    /// ```
    pub fn description(&self) -> &str {
        match self {
            IpNetworkError::InvalidAddr(_) => "address is invalid",
            IpNetworkError::InvalidPrefix => "prefix is invalid",
            IpNetworkError::InvalidCidrFormat(_) => "cidr is invalid",
            IpNetworkError::NetworkSizeError(_) => "network size error",
            IpNetworkError::OutOfMemory => "out of memory",
        }
    }

    /// A copy of the error. Allocates at most once, and only if the error carries a text; returns
    /// `AllocError` only if that fails.
    ///
    /// ```
    /// # use fosibegan_core::in_examples::*;
    /// # ended(|| {
    /// let error = IpNetworkError::from_addr(Global, AddrParseError::Ipv4);
    /// assert_eq!(error.try_clone(Global)?, error);
    /// # Ok(())
    /// # });
    /// ```
    pub fn try_clone(&self, alloc: Global) -> Result<Self, AllocError> {
        match self {
            IpNetworkError::InvalidAddr(text) => Ok(IpNetworkError::InvalidAddr(String::from_str(
                alloc,
                text.as_str(),
            )?)),
            IpNetworkError::InvalidPrefix => Ok(IpNetworkError::InvalidPrefix),
            IpNetworkError::InvalidCidrFormat(text) => Ok(IpNetworkError::InvalidCidrFormat(
                String::from_str(alloc, text.as_str())?,
            )),
            IpNetworkError::NetworkSizeError(error) => Ok(IpNetworkError::NetworkSizeError(*error)),
            IpNetworkError::OutOfMemory => Ok(IpNetworkError::OutOfMemory),
        }
    }

    /// `InvalidAddr` with the text of an address error, or `OutOfMemory`. Allocates once.
    ///
    /// ```
    /// # use fosibegan_core::in_examples::*;
    /// # ended(|| {
    /// let error = IpNetworkError::from_addr(Global, AddrParseError::Ipv6);
    /// let text = "invalid IPv6 address syntax".kit_to_string(Global)?;
    /// assert_eq!(error, IpNetworkError::InvalidAddr(text));
    /// # Ok(())
    /// # });
    /// ```
    pub fn from_addr(alloc: Global, error: AddrParseError) -> Self {
        IpNetworkError::invalid_addr(
            alloc,
            match error {
                AddrParseError::Ipv4 => "invalid IPv4 address syntax",
                AddrParseError::Ipv6 => "invalid IPv6 address syntax",
                AddrParseError::Ip => "invalid IP address syntax",
            },
        )
    }

    /// The error for an input that was refused for this cause when an address of this kind was
    /// expected, or `OutOfMemory`. Allocates at most once, and not at all for `CidrFault::Prefix`.
    ///
    /// - `Format`: `InvalidCidrFormat` with `CIDR must contain a single '/': ` and the input.
    /// - `Addr`: `InvalidAddr` with the text of the kind, or for `AddrParseError::Ip` with the input.
    /// - `Prefix`: `InvalidPrefix`.
    ///
    /// ```
    /// # use fosibegan_core::in_examples::*;
    /// # ended(|| {
    /// let error = IpNetworkError::from_fault(Global, CidrFault::Addr, AddrParseError::Ip, "10/8");
    /// assert_eq!(error, IpNetworkError::InvalidAddr("10/8".kit_to_string(Global)?));
    /// # Ok(())
    /// # });
    /// ```
    pub fn from_fault(alloc: Global, fault: CidrFault, kind: AddrParseError, input: &str) -> Self {
        match fault {
            CidrFault::Format => IpNetworkError::invalid_format(alloc, input),
            CidrFault::Addr => match kind {
                AddrParseError::Ip => IpNetworkError::invalid_addr(alloc, input),
                _ => IpNetworkError::from_addr(alloc, kind),
            },
            CidrFault::Prefix => IpNetworkError::InvalidPrefix,
        }
    }

    /// `InvalidAddr` with this text, or `OutOfMemory`.
    fn invalid_addr(alloc: Global, text: &str) -> Self {
        match String::from_str(alloc, text) {
            Ok(text) => IpNetworkError::InvalidAddr(text),
            Err(_) => IpNetworkError::OutOfMemory,
        }
    }

    /// `InvalidCidrFormat` of this input, or `OutOfMemory`.
    fn invalid_format(alloc: Global, input: &str) -> Self {
        match joined(alloc, "CIDR must contain a single '/': ", input) {
            Ok(text) => IpNetworkError::InvalidCidrFormat(text),
            Err(_) => IpNetworkError::OutOfMemory,
        }
    }
}

/// Concatenates two texts. Allocates once.
fn joined(alloc: Global, front: &str, back: &str) -> Result<String, AllocError> {
    let mut text = String::with_capacity(alloc, front.len() + back.len())?;
    text.push_str(front)?;
    text.push_str(back)?;
    Ok(text)
}

impl fmt::Display for IpNetworkError {
    fn fmt(&self, f: &mut fmt::Formatter<'_>) -> fmt::Result {
        match self {
            IpNetworkError::InvalidAddr(text) => write_both(f, "invalid address: ", text.as_str()),
            IpNetworkError::InvalidPrefix => f.write_str("invalid prefix"),
            IpNetworkError::InvalidCidrFormat(text) => {
                write_both(f, "invalid cidr format: ", text.as_str())
            }
            IpNetworkError::NetworkSizeError(error) => {
                write_both(f, "network size error: ", error.text())
            }
            IpNetworkError::OutOfMemory => f.write_str("out of memory"),
        }
    }
}

/// Writes two texts. The formatter's width and fill are ignored.
fn write_both(f: &mut fmt::Formatter<'_>, front: &str, back: &str) -> fmt::Result {
    f.write_str(front)?;
    f.write_str(back)
}

impl Error for IpNetworkError {}

impl NetworkSizeError {
    fn text(self) -> &'static str {
        match self {
            NetworkSizeError::NetworkIsTooLarge => {
                "Network is too large to fit into an unsigned 32-bit integer!"
            }
        }
    }
}

impl fmt::Display for NetworkSizeError {
    fn fmt(&self, f: &mut fmt::Formatter<'_>) -> fmt::Result {
        f.write_str(self.text())
    }
}

impl Error for NetworkSizeError {}
