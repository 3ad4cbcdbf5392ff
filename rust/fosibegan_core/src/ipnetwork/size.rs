// Written by scripts/plain out of crates/ipnetwork/src/size.rt

//! The number of addresses of a network.

use crate::plain_std::arrayvec::ArrayString;
use crate::ipnetwork_addr::decimal::push_number;
use crate::ipnetwork_family::NetworkSizeError;
use core::cmp::Ordering;
use core::fmt;
use core::hash::{Hash, Hasher};

/// The greatest number of bytes that a size is printed as.
const DECIMAL_MAX: usize = 39;

/// The number of addresses of an IPv4 or IPv6 network.
///
/// Sizes are compared and hashed only by their numbers: an IPv4 and an IPv6 size of the same number
/// are equal.
///
/// ```
/// # use fosibegan_core::in_examples::*;
/// # ended(|| {
/// let size = "2001:db8::/120".parse::<IpNetwork>()?.size();
/// assert_eq!(size, NetworkSize::V6(256));
/// assert_eq!(size, NetworkSize::V4(256));
/// # Ok(())
/// # });
/// ```
#[derive(Clone, Copy, Debug)]
pub enum NetworkSize {
    /// The size of an IPv4 network.
    V4(u32),
    /// The size of an IPv6 network.
    V6(u128),
}

impl From<u32> for NetworkSize {
    /// Returns the size of this number, in the variant `V4`.
    fn from(number: u32) -> Self {
        NetworkSize::V4(number)
    }
}

impl From<u128> for NetworkSize {
    /// Returns the size of this number, in the variant `V6`.
    fn from(number: u128) -> Self {
        NetworkSize::V6(number)
    }
}

impl From<NetworkSize> for u128 {
    /// Returns the number of a size of either family.
    fn from(size: NetworkSize) -> Self {
        match size {
            NetworkSize::V4(number) => u128::from(number),
            NetworkSize::V6(number) => number,
        }
    }
}

impl TryFrom<NetworkSize> for u32 {
    type Error = NetworkSizeError;

    /// Returns the number of an IPv4 size, or `NetworkIsTooLarge` for an IPv6 size, however small
    /// it is.
    fn try_from(size: NetworkSize) -> Result<Self, NetworkSizeError> {
        match size {
            NetworkSize::V4(number) => Ok(number),
            NetworkSize::V6(_) => Err(NetworkSizeError::NetworkIsTooLarge),
        }
    }
}

impl PartialEq for NetworkSize {
    fn eq(&self, other: &NetworkSize) -> bool {
        u128::from(*self) == u128::from(*other)
    }
}

impl Eq for NetworkSize {
}

impl Ord for NetworkSize {
    fn cmp(&self, other: &NetworkSize) -> Ordering {
        u128::from(*self).cmp(&u128::from(*other))
    }
}

impl PartialOrd for NetworkSize {
    fn partial_cmp(&self, other: &NetworkSize) -> Option<Ordering> {
        Some(self.cmp(other))
    }
}

impl Hash for NetworkSize {
    fn hash<H: Hasher>(&self, state: &mut H) {
        u128::from(*self).hash(state);
    }
}

impl fmt::Display for NetworkSize {
    fn fmt(&self, f: &mut fmt::Formatter<'_>) -> fmt::Result {
        let mut text = ArrayString::<DECIMAL_MAX>::new();
        push_number(&mut text, u128::from(*self));
        f.write_str(text.as_str())
    }
}
