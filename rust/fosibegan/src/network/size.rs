//! The number of addresses of a network of either family.

use crate::NetworkSizeError;
use core::cmp::Ordering;
use core::fmt;
use core::hash::{Hash, Hasher};

/// The number of addresses in a network of either family, one less at prefix length 0.
///
/// Sizes are compared and hashed as numbers, whatever their family is.
///
/// # Examples
///
/// ```
/// use fosibegan::{IpNetwork, NetworkSize};
///
/// let network: IpNetwork = "192.0.2.0/24".parse()?;
/// assert_eq!(network.size(), NetworkSize::V4(256));
/// assert_eq!(network.size(), NetworkSize::V6(256));
/// assert_eq!(u128::from(network.size()), 256);
/// # Ok::<(), Box<dyn std::error::Error>>(())
/// ```
#[derive(Clone, Copy, Debug)]
pub enum NetworkSize {
    /// The size of an IPv4 network.
    V4(u32),
    /// The size of an IPv6 network.
    V6(u128),
}

impl From<u32> for NetworkSize {
    fn from(number: u32) -> Self {
        Self::V4(number)
    }
}

impl From<u128> for NetworkSize {
    fn from(number: u128) -> Self {
        Self::V6(number)
    }
}

impl From<NetworkSize> for u128 {
    fn from(size: NetworkSize) -> u128 {
        match size {
            NetworkSize::V4(number) => number.into(),
            NetworkSize::V6(number) => number,
        }
    }
}

impl TryFrom<NetworkSize> for u32 {
    type Error = NetworkSizeError;

    /// The number, if this is the size of an IPv4 network. The size of an IPv6 network is refused
    /// even if it would fit.
    fn try_from(size: NetworkSize) -> Result<u32, NetworkSizeError> {
        match size {
            NetworkSize::V4(number) => Ok(number),
            NetworkSize::V6(_) => Err(NetworkSizeError::NetworkIsTooLarge),
        }
    }
}

impl PartialEq for NetworkSize {
    fn eq(&self, other: &Self) -> bool {
        u128::from(*self) == u128::from(*other)
    }
}

impl Eq for NetworkSize {}

impl Ord for NetworkSize {
    fn cmp(&self, other: &Self) -> Ordering {
        u128::from(*self).cmp(&u128::from(*other))
    }
}

impl PartialOrd for NetworkSize {
    fn partial_cmp(&self, other: &Self) -> Option<Ordering> {
        Some(self.cmp(other))
    }
}

impl Hash for NetworkSize {
    fn hash<H: Hasher>(&self, state: &mut H) {
        u128::from(*self).hash(state);
    }
}

impl fmt::Display for NetworkSize {
    /// Writes the number, without regard to width and fill.
    fn fmt(&self, f: &mut fmt::Formatter<'_>) -> fmt::Result {
        write!(f, "{}", u128::from(*self))
    }
}
