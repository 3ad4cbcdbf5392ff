//! The prefix lengths of masks.

use crate::IpNetworkError;
use core::net::{IpAddr, Ipv4Addr, Ipv6Addr};

/// Returns the prefix length of an IPv4 mask.
///
/// # Errors
///
/// Returns [`IpNetworkError::InvalidPrefix`] if the address is not some ones followed by zeros.
///
/// # Examples
///
/// ```
/// use fosibegan::ipv4_mask_to_prefix;
/// use std::net::Ipv4Addr;
///
/// assert_eq!(ipv4_mask_to_prefix(Ipv4Addr::new(255, 255, 240, 0)), Ok(20));
/// assert!(ipv4_mask_to_prefix(Ipv4Addr::new(255, 0, 255, 0)).is_err());
/// ```
pub const fn ipv4_mask_to_prefix(mask: Ipv4Addr) -> Result<u8, IpNetworkError> {
    match prefix_of_ipv4_mask(mask) {
        Some(prefix) => Ok(prefix),
        None => Err(IpNetworkError::InvalidPrefix),
    }
}

/// Returns the prefix length of an IPv6 mask.
///
/// # Errors
///
/// Returns [`IpNetworkError::InvalidPrefix`] if the address is not some ones followed by zeros.
///
/// # Examples
///
/// ```
/// use fosibegan::ipv6_mask_to_prefix;
/// use std::net::Ipv6Addr;
///
/// let mask: Ipv6Addr = "ffff:ffff:f000::".parse()?;
/// assert_eq!(ipv6_mask_to_prefix(mask)?, 36);
/// assert!(ipv6_mask_to_prefix(Ipv6Addr::LOCALHOST).is_err());
/// # Ok::<(), Box<dyn std::error::Error>>(())
/// ```
pub const fn ipv6_mask_to_prefix(mask: Ipv6Addr) -> Result<u8, IpNetworkError> {
    match prefix_of_ipv6_mask(mask) {
        Some(prefix) => Ok(prefix),
        None => Err(IpNetworkError::InvalidPrefix),
    }
}

/// Returns the prefix length of a mask of either family.
///
/// # Errors
///
/// Returns [`IpNetworkError::InvalidPrefix`] if the address is not some ones followed by zeros.
///
/// # Examples
///
/// ```
/// use fosibegan::ip_mask_to_prefix;
///
/// assert_eq!(ip_mask_to_prefix("255.255.240.0".parse()?)?, 20);
/// assert_eq!(ip_mask_to_prefix("ffff:ffff:f000::".parse()?)?, 36);
/// assert!(ip_mask_to_prefix("255.0.255.0".parse()?).is_err());
/// # Ok::<(), Box<dyn std::error::Error>>(())
/// ```
pub const fn ip_mask_to_prefix(mask: IpAddr) -> Result<u8, IpNetworkError> {
    match prefix_of_ip_mask(mask) {
        Some(prefix) => Ok(prefix),
        None => Err(IpNetworkError::InvalidPrefix),
    }
}

/// The prefix length of a mask, if this address is one.
pub(super) const fn prefix_of_ip_mask(mask: IpAddr) -> Option<u8> {
    match mask {
        IpAddr::V4(mask) => prefix_of_ipv4_mask(mask),
        IpAddr::V6(mask) => prefix_of_ipv6_mask(mask),
    }
}

/// The prefix length of a mask, if this address is one: if one more than its host bits, which are
/// ones at the end of a number, has none of them.
#[allow(clippy::cast_possible_truncation)]
pub(super) const fn prefix_of_ipv4_mask(mask: Ipv4Addr) -> Option<u8> {
    let host_bits = !mask.to_bits();
    if host_bits & host_bits.wrapping_add(1) == 0 {
        Some(host_bits.leading_zeros() as u8)
    } else {
        None
    }
}

/// The prefix length of a mask, if this address is one: if one more than its host bits, which are
/// ones at the end of a number, has none of them.
#[allow(clippy::cast_possible_truncation)]
pub(super) const fn prefix_of_ipv6_mask(mask: Ipv6Addr) -> Option<u8> {
    let host_bits = !mask.to_bits();
    if host_bits & host_bits.wrapping_add(1) == 0 {
        Some(host_bits.leading_zeros() as u8)
    } else {
        None
    }
}
