// Written by scripts/plain out of crates/ipnetwork_blocks/src/held_network.rt

//! Values that hold a network of one family. They let the same code aggregate a list of networks of
//! one family and the networks of one family in a list of both.

use crate::ipnetwork::{IpNetwork, Ipv4Network, Ipv6Network};
use crate::ipnetwork_family::CidrNetwork;

/// A value that may hold a network of the family of `N`, so that lists of such values are
/// aggregated in place. Values that hold one are ordered as their networks are. A network holds
/// itself, and an `IpNetwork` holds a network of either family.
///
/// ```
/// # use fosibegan_core::in_examples::*;
/// # ended(|| {
/// let network: Ipv4Network = "10.0.0.0/8".parse()?;
/// let value = <IpNetwork as HoldsNetwork<Ipv4Network>>::holding(network);
/// assert_eq!(value, "10.0.0.0/8".parse()?);
/// # Ok(())
/// # });
/// ```
pub trait HoldsNetwork<N: CidrNetwork>: Copy + Ord {
    /// Whether each list of such values that `Union::of` and its like are given is known to be an
    /// address set, by `is_address_set`, so that they do not ask again. A type that says so has to
    /// see to it.
    const CHECKED: bool = false;

    /// Returns the network that the value holds. The value must hold one of the family of `N`.
    ///
    /// ```
    /// # use fosibegan_core::in_examples::*;
    /// # ended(|| {
    /// let value: Ipv6Network = "2001:db8::/32".parse()?;
    /// assert_eq!(HoldsNetwork::<Ipv6Network>::held_network(value), value);
    /// # Ok(())
    /// # });
    /// ```
    ///
    /// # Panics
    ///
    /// Panics if the value holds no network of the family.
    fn held_network(self) -> N;

    /// Returns the value that holds the network.
    ///
    /// ```
    /// # use fosibegan_core::in_examples::*;
    /// # ended(|| {
    /// let network: Ipv6Network = "2001:db8::/32".parse()?;
    /// assert_eq!(<IpNetwork as HoldsNetwork<Ipv6Network>>::holding(network), IpNetwork::V6(network));
    /// # Ok(())
    /// # });
    /// ```
    fn holding(network: N) -> Self;
}

impl<N: CidrNetwork> HoldsNetwork<N> for N {
    fn held_network(self) -> N {
        self
    }

    fn holding(network: N) -> N {
        network
    }
}

impl HoldsNetwork<Ipv4Network> for IpNetwork {
    fn held_network(self) -> Ipv4Network {
        match self {
            IpNetwork::V4(network) => network,
            IpNetwork::V6(_) => panic!("held_network: the value holds no network of the family"),
        }
    }

    fn holding(network: Ipv4Network) -> IpNetwork {
        IpNetwork::V4(network)
    }
}

impl HoldsNetwork<Ipv6Network> for IpNetwork {
    fn held_network(self) -> Ipv6Network {
        match self {
            IpNetwork::V6(network) => network,
            IpNetwork::V4(_) => panic!("held_network: the value holds no network of the family"),
        }
    }

    fn holding(network: Ipv6Network) -> IpNetwork {
        IpNetwork::V6(network)
    }
}
