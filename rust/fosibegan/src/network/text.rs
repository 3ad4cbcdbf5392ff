//! Networks as texts: read, printed, and refused.

use crate::{IpNetwork, IpNetworkError, Ipv4Network, Ipv6Network};
use alloc::borrow::Cow;
use alloc::format;
use alloc::string::{String, ToString as _};
use core::fmt;
use core::str::FromStr;
use fosibegan_core::ipnetwork::{self as library, cause};
use fosibegan_core::ipnetwork_family::{CidrFault, NETWORK_TEXT_CAPACITY};
use fosibegan_core::plain_std::arrayvec::ArrayString;

/// The greatest number of bytes of a text that [`IpNetwork::cause_of`] repeats.
const SHOWN: usize = 60;

impl IpNetwork {
    /// Returns why a text does not name a network, or `None` if it names one.
    ///
    /// When [`parse`](str::parse) refuses a text, its error is [`IpNetworkError::InvalidAddr`] with
    /// the whole text, whatever is wrong with it. This function tells the causes apart, and repeats
    /// at most 60 bytes of the text, so that its error is short.
    ///
    /// These bytes are as they were read, with line breaks and other control characters. To log the
    /// error of a text from an untrusted source, print it by `{:?}`, which escapes them.
    ///
    /// # Examples
    ///
    /// ```
    /// use fosibegan::{IpNetwork, IpNetworkError};
    ///
    /// assert_eq!(IpNetwork::cause_of("10.0.0.0/33"), Some(IpNetworkError::InvalidPrefix));
    /// assert_eq!(
    ///     IpNetwork::cause_of("10.0.0/8"),
    ///     Some(IpNetworkError::InvalidAddr("10.0.0/8".to_string())),
    /// );
    /// assert_eq!(IpNetwork::cause_of("10.0.0.0/8"), None);
    ///
    /// let forged = IpNetwork::cause_of("x\n10.0.0.1 allowed");
    /// assert_eq!(format!("{forged:?}"), r#"Some(InvalidAddr("x\n10.0.0.1 allowed"))"#);
    /// ```
    #[must_use]
    pub fn cause_of(text: &str) -> Option<IpNetworkError> {
        let fault = cause(text.as_bytes())?;
        let shown = shortened(text);
        Some(refusal(fault, &shown, &shown))
    }
}

/// The text, or as much of it as fits with an ellipsis in the bytes that are shown.
fn shortened(text: &str) -> Cow<'_, str> {
    const ELLIPSIS: char = '…';
    if text.len() <= SHOWN {
        return Cow::Borrowed(text);
    }
    let mut end = SHOWN - ELLIPSIS.len_utf8();
    while !text.is_char_boundary(end) {
        end -= 1;
    }
    let mut shown = String::from(&text[..end]);
    shown.push(ELLIPSIS);
    Cow::Owned(shown)
}

/// The error of a text that is refused for this fault, with these words if its address is none.
fn refusal(fault: CidrFault, text: &str, no_address: &str) -> IpNetworkError {
    match fault {
        CidrFault::Format => {
            IpNetworkError::InvalidCidrFormat(format!("CIDR must contain a single '/': {text}"))
        }
        CidrFault::Addr => IpNetworkError::InvalidAddr(no_address.to_string()),
        CidrFault::Prefix => IpNetworkError::InvalidPrefix,
    }
}

impl Ipv4Network {
    /// The network as text.
    #[inline]
    pub(crate) fn canonical(self) -> ArrayString<NETWORK_TEXT_CAPACITY> {
        self.asked().canonical()
    }
}

impl Ipv6Network {
    /// The network as text.
    #[inline]
    pub(crate) fn canonical(self) -> ArrayString<NETWORK_TEXT_CAPACITY> {
        self.asked().canonical()
    }
}

impl IpNetwork {
    /// The network as text.
    #[inline]
    pub(crate) fn canonical(self) -> ArrayString<NETWORK_TEXT_CAPACITY> {
        match self {
            Self::V4(network) => network.canonical(),
            Self::V6(network) => network.canonical(),
        }
    }
}

impl FromStr for Ipv4Network {
    type Err = IpNetworkError;

    fn from_str(text: &str) -> Result<Self, IpNetworkError> {
        match library::Ipv4Network::read_bytes(text.as_bytes()) {
            Ok(network) => Ok(Self::from_core(network)),
            Err(fault) => Err(refusal(fault, text, "invalid IPv4 address syntax")),
        }
    }
}

impl FromStr for Ipv6Network {
    type Err = IpNetworkError;

    fn from_str(text: &str) -> Result<Self, IpNetworkError> {
        match library::Ipv6Network::read_bytes(text.as_bytes()) {
            Ok(network) => Ok(Self::from_core(network)),
            Err(fault) => Err(refusal(fault, text, "invalid IPv6 address syntax")),
        }
    }
}

impl FromStr for IpNetwork {
    type Err = IpNetworkError;

    /// Reads a network of either family. Each text that names none is refused with
    /// [`IpNetworkError::InvalidAddr`] and the whole text; [`IpNetwork::cause_of`] tells what is
    /// wrong with it.
    fn from_str(text: &str) -> Result<Self, IpNetworkError> {
        match library::IpNetwork::read_bytes(text.as_bytes()) {
            Ok(library::IpNetwork::V4(network)) => Ok(Self::V4(Ipv4Network::from_core(network))),
            Ok(library::IpNetwork::V6(network)) => Ok(Self::V6(Ipv6Network::from_core(network))),
            Err(_) => Err(IpNetworkError::InvalidAddr(text.to_string())),
        }
    }
}

macro_rules! text {
    ($($name:ident)*) => {$(
        impl TryFrom<&str> for $name {
            type Error = IpNetworkError;

            /// Reads a network, as [`parse`](str::parse) does.
            fn try_from(text: &str) -> Result<Self, IpNetworkError> {
                text.parse()
            }
        }

        impl fmt::Display for $name {
            /// Writes `address/prefix length`, and respects a width, fill, alignment and precision.
            fn fmt(&self, f: &mut fmt::Formatter<'_>) -> fmt::Result {
                f.pad(self.canonical().as_str())
            }
        }

        impl fmt::Debug for $name {
            /// Writes the same text as `Display`.
            fn fmt(&self, f: &mut fmt::Formatter<'_>) -> fmt::Result {
                fmt::Display::fmt(self, f)
            }
        }
    )*};
}

text!(Ipv4Network Ipv6Network IpNetwork);
