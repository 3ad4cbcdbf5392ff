// Written by scripts/plain out of crates/ipnetwork_family/src/cidr_network.rt

//! What the networks of both families have in common.

use crate::ipnetwork_family::{Address, Network};

/// A network of addresses of `WIDTH` bits, for code that is generic over both families.
///
/// An address represents a number of `WIDTH` bits and is ordered by it. A network is an address,
/// host bits included, and a prefix length, and is ordered by address, then by prefix length. No
/// call allocates.
///
/// ```
/// # use fosibegan_core::in_examples::*;
/// # ended(|| {
/// fn hosts_hidden<N: CidrNetwork>(network: N) -> bool {
///     network.ip() == network.network()
/// }
/// assert!(hosts_hidden("10.0.0.0/8".parse::<Ipv4Network>()?));
/// # Ok(())
/// # });
/// ```
pub trait CidrNetwork: Copy + Ord {
    /// The addresses of the family.
    type Addr: Copy + Ord;

    /// The number of bits of an address, and the greatest prefix length.
    const WIDTH: u8;

    /// The address as given, host bits included.
    ///
    /// ```
    /// # use fosibegan_core::in_examples::*;
    /// # ended(|| {
    /// let network: Ipv6Network = "2001:db8::7/126".parse()?;
    /// assert_eq!(CidrNetwork::ip(&network).canonical().as_str(), "2001:db8::7");
    /// # Ok(())
    /// # });
    /// ```
    fn ip(&self) -> Self::Addr;

    /// The prefix length, in bits.
    ///
    /// ```
    /// # use fosibegan_core::in_examples::*;
    /// # ended(|| {
    /// let network: Ipv6Network = "2001:db8::7/126".parse()?;
    /// assert_eq!(CidrNetwork::prefix(&network), 126);
    /// # Ok(())
    /// # });
    /// ```
    fn prefix(&self) -> u8;

    /// The least member: the address with its host bits cleared.
    ///
    /// ```
    /// # use fosibegan_core::in_examples::*;
    /// # ended(|| {
    /// let network: Ipv6Network = "2001:db8::7/126".parse()?;
    /// assert_eq!(CidrNetwork::network(&network).canonical().as_str(), "2001:db8::4");
    /// # Ok(())
    /// # });
    /// ```
    fn network(&self) -> Self::Addr;

    /// The greatest member: the address with its host bits set.
    ///
    /// ```
    /// # use fosibegan_core::in_examples::*;
    /// # ended(|| {
    /// let network: Ipv6Network = "2001:db8::7/126".parse()?;
    /// assert_eq!(CidrNetwork::broadcast(&network).canonical().as_str(), "2001:db8::7");
    /// # Ok(())
    /// # });
    /// ```
    fn broadcast(&self) -> Self::Addr;

    /// Whether an address is in the network's set.
    ///
    /// ```
    /// # use fosibegan_core::in_examples::*;
    /// # ended(|| {
    /// let network: Ipv6Network = "2001:db8::7/126".parse()?;
    /// assert!(CidrNetwork::contains(&network, "2001:db8::5".parse()?));
    /// # Ok(())
    /// # });
    /// ```
    fn contains(&self, ip: Self::Addr) -> bool;

    /// Whether each member of this network is a member of `other`. Host bits are ignored.
    ///
    /// ```
    /// # use fosibegan_core::in_examples::*;
    /// # ended(|| {
    /// let network: Ipv6Network = "2001:db8::7/126".parse()?;
    /// assert!(CidrNetwork::is_subnet_of(network, "2001:db8::/32".parse()?));
    /// # Ok(())
    /// # });
    /// ```
    fn is_subnet_of(self, other: Self) -> bool;

    /// Whether some address is a member of both networks.
    ///
    /// ```
    /// # use fosibegan_core::in_examples::*;
    /// # ended(|| {
    /// let network: Ipv6Network = "2001:db8::7/126".parse()?;
    /// assert!(!CidrNetwork::overlaps(network, "2001:db8::/126".parse()?));
    /// # Ok(())
    /// # });
    /// ```
    fn overlaps(self, other: Self) -> bool;

    /// The network without host bits that has this prefix length and holds the address; `None` if
    /// the prefix length is greater than `WIDTH`.
    ///
    /// ```
    /// # use fosibegan_core::in_examples::*;
    /// # ended(|| {
    /// let block = <Ipv6Network as CidrNetwork>::block("2001:db8::7".parse()?, 126);
    /// assert_eq!(block, "2001:db8::4/126".parse().ok());
    /// # Ok(())
    /// # });
    /// ```
    fn block(addr: Self::Addr, prefix: u8) -> Option<Self>;
}

impl<A: Address> CidrNetwork for Network<A> {
    type Addr = A;

    const WIDTH: u8 = A::WIDTH;

    fn ip(&self) -> A {
        Network::ip(self)
    }

    fn prefix(&self) -> u8 {
        Network::prefix(self)
    }

    fn network(&self) -> A {
        Network::network(self)
    }

    fn broadcast(&self) -> A {
        Network::broadcast(self)
    }

    fn contains(&self, ip: A) -> bool {
        Network::contains(self, ip)
    }

    fn is_subnet_of(self, other: Network<A>) -> bool {
        Network::is_subnet_of(self, other)
    }

    fn overlaps(self, other: Network<A>) -> bool {
        Network::overlaps(self, other)
    }

    fn block(addr: A, prefix: u8) -> Option<Network<A>> {
        Network::block(addr, prefix)
    }
}
