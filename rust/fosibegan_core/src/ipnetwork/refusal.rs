// Written by scripts/plain out of crates/ipnetwork/src/refusal.rt

//! Why a text names no network of either family.

use crate::ipnetwork_family::{CidrFault, Ipv4Network, Ipv6Network};

/// Returns why a text names no network of either family, or `None` if it names one.
///
/// The cause is `Format` if the text has two or more `/`, else `Addr` if the text before the `/` is
/// no address of either family, else `Prefix`. `IpNetwork::read_bytes` returns `Addr` in all three
/// cases.
///
/// ```
/// # use fosibegan_core::in_examples::*;
/// assert_eq!(cause(b"10.0.0.0/33"), Some(CidrFault::Prefix));
/// assert_eq!(cause(b"10.0.0.0/8"), None);
/// ```
pub fn cause(text: &[u8]) -> Option<CidrFault> {
    let Err(v4) = Ipv4Network::read_bytes(text) else {
        return None;
    };
    let Err(v6) = Ipv6Network::read_bytes(text) else {
        return None;
    };
    Some(first_cause(v4, v6))
}

/// Returns the cause for both families, from the cause for each.
fn first_cause(v4: CidrFault, v6: CidrFault) -> CidrFault {
    match (v4, v6) {
        (CidrFault::Format, _) => CidrFault::Format,
        (CidrFault::Addr, CidrFault::Addr) => CidrFault::Addr,
        (_, _) => CidrFault::Prefix,
    }
}
