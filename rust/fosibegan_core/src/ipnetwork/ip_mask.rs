// Written by scripts/plain out of crates/ipnetwork/src/ip_mask.rt

//! Masks of either family.

use crate::ipnetwork_addr::IpAddr;
use crate::ipnetwork_family::{IpNetworkError, ipv4_mask_to_prefix, ipv6_mask_to_prefix};

/// Returns the prefix length of a mask of either family, or `InvalidPrefix` if the address is not a
/// mask of its family.
///
/// ```
/// # use fosibegan_core::in_examples::*;
/// # ended(|| {
/// assert_eq!(ip_mask_to_prefix("255.255.240.0".parse()?), Ok(20));
/// assert_eq!(ip_mask_to_prefix("ffff::".parse()?), Ok(16));
/// # Ok(())
/// # });
/// ```
pub fn ip_mask_to_prefix(mask: IpAddr) -> Result<u8, IpNetworkError> {
    match mask {
        IpAddr::V4(mask) => ipv4_mask_to_prefix(mask),
        IpAddr::V6(mask) => ipv6_mask_to_prefix(mask),
    }
}
