// Written by scripts/plain out of crates/ipnetwork/src/error.rt

//! The error for converting to the wrong family.

/// The network is of the other family.
///
/// ```
/// # use fosibegan_core::in_examples::*;
/// # ended(|| {
/// let network: IpNetwork = "2001:db8::/32".parse()?;
/// assert_eq!(Ipv4Network::try_from(network), Err(WrongFamily));
/// # Ok(())
/// # });
/// ```
#[derive(Clone, Copy, Debug, PartialEq, Eq)]
pub struct WrongFamily;
