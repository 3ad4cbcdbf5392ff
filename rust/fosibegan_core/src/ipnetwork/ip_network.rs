// Written by scripts/plain out of crates/ipnetwork/src/ip_network.rt

//! Networks of either family.

use crate::plain_std::string::String;
use crate::ipnetwork::error::WrongFamily;
use crate::ipnetwork::ip_iter::IpNetworkIterator;
use crate::ipnetwork::ip_mask::ip_mask_to_prefix;
use crate::ipnetwork::size::NetworkSize;
use crate::plain_std::arrayvec::ArrayString;
use crate::ipnetwork_addr::first_mark::has_colon_first;
use crate::ipnetwork_addr::{AddrParseError, IpAddr};
use crate::ipnetwork_family::{
    CidrFault, IpNetworkError, Ipv4Network, Ipv6Network, NETWORK_TEXT_CAPACITY,
};
use crate::plain_std::alloc::{AllocError, Global};
use core::fmt;
use core::str::FromStr;

/// A network of either family. Its set contains only addresses of its family. Every IPv4 network is
/// ordered before every IPv6 network.
///
/// ```
/// # use fosibegan_core::in_examples::*;
/// # ended(|| {
/// let network: IpNetwork = "10.1.9.32/8".parse()?;
/// assert_eq!(network, IpNetwork::V4("10.1.9.32/8".parse()?));
/// # Ok(())
/// # });
/// ```
#[derive(Clone, Copy, Debug, PartialEq, Eq, PartialOrd, Ord, Hash)]
pub enum IpNetwork {
    /// An IPv4 network.
    V4(Ipv4Network),
    /// An IPv6 network.
    V6(Ipv6Network),
}

// From the clause `network`, proofs in other crates know what holds for every network: they cannot
// see its fields, which are private.
impl IpNetwork {
    /// Creates a network from an address, whose host bits are kept, and a prefix length. Returns
    /// `InvalidPrefix` if that exceeds the number of bits of the address, 32 or 128.
    ///
    /// ```
    /// # use fosibegan_core::in_examples::*;
    /// # ended(|| {
    /// let network = IpNetwork::new("2001:db8::1".parse()?, 64)?;
    /// assert_eq!(network.canonical().as_str(), "2001:db8::1/64");
    /// # Ok(())
    /// # });
    /// ```
    pub fn new(ip: IpAddr, prefix: u8) -> Result<Self, IpNetworkError> {
        match ip {
            IpAddr::V4(address) => Ok(IpNetwork::V4(Ipv4Network::new(address, prefix)?)),
            IpAddr::V6(address) => Ok(IpNetwork::V6(Ipv6Network::new(address, prefix)?)),
        }
    }

    /// Creates a network from an address, whose host bits are kept, and the prefix length of a
    /// mask. Returns `InvalidPrefix` if `netmask` is not a mask of its family, or its prefix length
    /// exceeds the number of bits of the address. The two may differ in family: the mask only gives
    /// a prefix length.
    ///
    /// ```
    /// # use fosibegan_core::in_examples::*;
    /// # ended(|| {
    /// let network = IpNetwork::with_netmask("10.1.9.32".parse()?, "255.0.0.0".parse()?)?;
    /// assert_eq!(network.prefix(), 8);
    /// # Ok(())
    /// # });
    /// ```
    pub fn with_netmask(netaddr: IpAddr, netmask: IpAddr) -> Result<Self, IpNetworkError> {
        // This call does nothing, but its law is needed to prove this body.
        match ip_mask_to_prefix(netmask) {
            Ok(prefix) => IpNetwork::new(netaddr, prefix),
            Err(fault) => Err(fault),
        }
    }

    /// Returns the address as given, with host bits.
    ///
    /// ```
    /// # use fosibegan_core::in_examples::*;
    /// # ended(|| {
    /// let network: IpNetwork = "2001:db8::7/126".parse()?;
    /// assert_eq!(network.ip().canonical().as_str(), "2001:db8::7");
    /// # Ok(())
    /// # });
    /// ```
    pub fn ip(&self) -> IpAddr {
        match self {
            IpNetwork::V4(network) => IpAddr::V4(network.ip()),
            IpNetwork::V6(network) => IpAddr::V6(network.ip()),
        }
    }

    /// Returns the prefix length, in bits.
    ///
    /// ```
    /// # use fosibegan_core::in_examples::*;
    /// # ended(|| {
    /// let network: IpNetwork = "2001:db8::7/126".parse()?;
    /// assert_eq!(network.prefix(), 126);
    /// # Ok(())
    /// # });
    /// ```
    pub fn prefix(&self) -> u8 {
        match self {
            IpNetwork::V4(network) => network.prefix(),
            IpNetwork::V6(network) => network.prefix(),
        }
    }

    /// Returns the mask of the prefix length, in the network's family.
    ///
    /// ```
    /// # use fosibegan_core::in_examples::*;
    /// # ended(|| {
    /// let network: IpNetwork = "2001:db8::7/126".parse()?;
    /// assert_eq!(network.mask().canonical().as_str(), "ffff:ffff:ffff:ffff:ffff:ffff:ffff:fffc");
    /// # Ok(())
    /// # });
    /// ```
    pub fn mask(&self) -> IpAddr {
        match self {
            IpNetwork::V4(network) => IpAddr::V4(network.mask()),
            IpNetwork::V6(network) => IpAddr::V6(network.mask()),
        }
    }

    /// Returns the least member: the address with all host bits cleared.
    ///
    /// ```
    /// # use fosibegan_core::in_examples::*;
    /// # ended(|| {
    /// let network: IpNetwork = "2001:db8::7/126".parse()?;
    /// assert_eq!(network.network().canonical().as_str(), "2001:db8::4");
    /// # Ok(())
    /// # });
    /// ```
    pub fn network(&self) -> IpAddr {
        match self {
            IpNetwork::V4(network) => IpAddr::V4(network.network()),
            IpNetwork::V6(network) => IpAddr::V6(network.network()),
        }
    }

    /// Returns the greatest member: the address with all host bits set.
    ///
    /// ```
    /// # use fosibegan_core::in_examples::*;
    /// # ended(|| {
    /// let network: IpNetwork = "2001:db8::7/126".parse()?;
    /// assert_eq!(network.broadcast().canonical().as_str(), "2001:db8::7");
    /// # Ok(())
    /// # });
    /// ```
    pub fn broadcast(&self) -> IpAddr {
        match self {
            IpNetwork::V4(network) => IpAddr::V4(network.broadcast()),
            IpNetwork::V6(network) => IpAddr::V6(network.broadcast()),
        }
    }

    /// Returns whether the network is an IPv4 network.
    ///
    /// ```
    /// # use fosibegan_core::in_examples::*;
    /// # ended(|| {
    /// assert!("10.1.9.32/8".parse::<IpNetwork>()?.is_ipv4());
    /// # Ok(())
    /// # });
    /// ```
    pub fn is_ipv4(&self) -> bool {
        match self {
            IpNetwork::V4(_) => true,
            IpNetwork::V6(_) => false,
        }
    }

    /// Returns whether the network is an IPv6 network.
    ///
    /// ```
    /// # use fosibegan_core::in_examples::*;
    /// # ended(|| {
    /// assert!("::ffff:10.1.9.32/104".parse::<IpNetwork>()?.is_ipv6());
    /// # Ok(())
    /// # });
    /// ```
    pub fn is_ipv6(&self) -> bool {
        match self {
            IpNetwork::V4(_) => false,
            IpNetwork::V6(_) => true,
        }
    }

    /// Returns whether an address is in the network's set. No address of the other family is, not
    /// even an IPv4-mapped IPv6 address in an IPv4 network.
    ///
    /// ```
    /// # use fosibegan_core::in_examples::*;
    /// # ended(|| {
    /// let network: IpNetwork = "10.0.0.0/8".parse()?;
    /// assert!(network.contains("10.1.9.32".parse()?));
    /// assert!(!network.contains("::ffff:10.1.9.32".parse()?));
    /// # Ok(())
    /// # });
    /// ```
    pub fn contains(&self, ip: IpAddr) -> bool {
        match (self, ip) {
            (IpNetwork::V4(network), IpAddr::V4(address)) => network.contains(address),
            (IpNetwork::V6(network), IpAddr::V6(address)) => network.contains(address),
            _ => false,
        }
    }

    /// Returns the number of members, in the variant of the network's family. At prefix length 0
    /// the result is one less than that.
    ///
    /// ```
    /// # use fosibegan_core::in_examples::*;
    /// # ended(|| {
    /// let network: IpNetwork = "192.0.2.77/26".parse()?;
    /// assert_eq!(network.size(), NetworkSize::V4(64));
    /// # Ok(())
    /// # });
    /// ```
    pub fn size(&self) -> NetworkSize {
        match self {
            IpNetwork::V4(network) => NetworkSize::V4(network.size()),
            IpNetwork::V6(network) => NetworkSize::V6(network.size()),
        }
    }

    /// Returns the members, each once, in ascending order.
    ///
    /// ```
    /// # use fosibegan_core::in_examples::*;
    /// # ended(|| {
    /// let network: IpNetwork = "2001:db8::7/126".parse()?;
    /// assert_eq!(network.iter().count(), 4);
    /// # Ok(())
    /// # });
    /// ```
    pub fn iter(&self) -> IpNetworkIterator {
        match self {
            IpNetwork::V4(network) => IpNetworkIterator::of_v4(network.iter()),
            IpNetwork::V6(network) => IpNetworkIterator::of_v6(network.iter()),
        }
    }

    /// Returns whether each member of this network is a member of `other`. Host bits are ignored.
    /// The result is `false` if the two are of different families.
    ///
    /// ```
    /// # use fosibegan_core::in_examples::*;
    /// # ended(|| {
    /// let network: IpNetwork = "2001:db8::7/126".parse()?;
    /// assert!(network.is_subnet_of("2001:db8::/32".parse()?));
    /// assert!(!network.is_subnet_of("0.0.0.0/0".parse()?));
    /// # Ok(())
    /// # });
    /// ```
    pub fn is_subnet_of(self, other: IpNetwork) -> bool {
        // The clause `network` of `ip` states that the address fits in its family, so that it is a
        // member and the set is not empty.
        let _ = self.ip();
        match self {
            IpNetwork::V4(inner) => match other {
                IpNetwork::V4(outer) => inner.is_subnet_of(outer),
                IpNetwork::V6(_) => false,
            },
            IpNetwork::V6(inner) => match other {
                IpNetwork::V4(_) => false,
                IpNetwork::V6(outer) => inner.is_subnet_of(outer),
            },
        }
    }

    /// Returns whether each member of `other` is a member of this network. Host bits are ignored.
    /// The result is `false` if the two are of different families.
    ///
    /// ```
    /// # use fosibegan_core::in_examples::*;
    /// # ended(|| {
    /// let network: IpNetwork = "10.0.0.0/8".parse()?;
    /// assert!(network.is_supernet_of("10.1.9.32/16".parse()?));
    /// # Ok(())
    /// # });
    /// ```
    pub fn is_supernet_of(self, other: IpNetwork) -> bool {
        other.is_subnet_of(self)
    }

    /// Returns whether the two networks have a member in common.
    ///
    /// ```
    /// # use fosibegan_core::in_examples::*;
    /// # ended(|| {
    /// let network: IpNetwork = "10.0.0.0/8".parse()?;
    /// assert!(network.overlaps("8.0.0.0/6".parse()?));
    /// assert!(!network.overlaps("::/0".parse()?));
    /// # Ok(())
    /// # });
    /// ```
    pub fn overlaps(self, other: IpNetwork) -> bool {
        match self {
            IpNetwork::V4(one) => match other {
                IpNetwork::V4(other) => one.overlaps(other),
                IpNetwork::V6(_) => false,
            },
            IpNetwork::V6(one) => match other {
                IpNetwork::V4(_) => false,
                IpNetwork::V6(other) => one.overlaps(other),
            },
        }
    }

    /// Reads the network that a text names, with `Ipv4Network::read_bytes` or
    /// `Ipv6Network::read_bytes`; no text names a network of each family. For any other text the
    /// error is `CidrFault::Addr`, whatever is wrong with it.
    ///
    /// ```
    /// # use fosibegan_core::in_examples::*;
    /// # ended(|| {
    /// let network = IpNetwork::read_bytes(b"2001:db8::1/64")?;
    /// assert!(network.is_ipv6());
    /// assert_eq!(IpNetwork::read_bytes(b"10.0.0.0/33"), Err(CidrFault::Addr));
    /// # Ok(())
    /// # });
    /// ```
    pub fn read_bytes(text: &[u8]) -> Result<Self, CidrFault> {
        // These calls do nothing, but their laws are needed to prove this body.
        if has_colon_first(text) {
            match Ipv6Network::read_bytes(text) {
                Ok(network) => Ok(IpNetwork::V6(network)),
                Err(_) => Err(CidrFault::Addr),
            }
        } else {
            match Ipv4Network::read_bytes(text) {
                Ok(network) => Ok(IpNetwork::V4(network)),
                Err(_) => Err(CidrFault::Addr),
            }
        }
    }

    /// Reads the network that a text names, as `read_bytes` does. For any other text the error is
    /// `InvalidAddr` with the whole text, or `OutOfMemory`. Allocates only for an error, once.
    ///
    /// ```
    /// # use fosibegan_core::in_examples::*;
    /// # ended(|| {
    /// let refused = IpNetwork::parse(Global, "10.0.0.0/33");
    /// assert_eq!(refused, Err(IpNetworkError::InvalidAddr("10.0.0.0/33".kit_to_string(Global)?)));
    /// # Ok(())
    /// # });
    /// ```
    pub fn parse(alloc: Global, text: &str) -> Result<Self, IpNetworkError> {
        match IpNetwork::read_bytes(text.as_bytes()) {
            Ok(network) => Ok(network),
            Err(fault) => Err(IpNetworkError::from_fault(alloc, fault, AddrParseError::Ip, text)),
        }
    }

    /// Returns the canonical text, at most 43 bytes: that of the network in its family.
    ///
    /// ```
    /// # use fosibegan_core::in_examples::*;
    /// # ended(|| {
    /// let network: IpNetwork = "2001:DB8::1".parse()?;
    /// assert_eq!(network.canonical().as_str(), "2001:db8::1/128");
    /// # Ok(())
    /// # });
    /// ```
    pub fn canonical(&self) -> ArrayString<NETWORK_TEXT_CAPACITY> {
        match self {
            IpNetwork::V4(network) => network.canonical(),
            IpNetwork::V6(network) => network.canonical(),
        }
    }

    /// Returns the canonical text as a `String`. Allocates once; returns `AllocError` if out of
    /// memory.
    ///
    /// ```
    /// # use fosibegan_core::in_examples::*;
    /// # ended(|| {
    /// let network: IpNetwork = "10.1.9.32/255.0.0.0".parse()?;
    /// assert_eq!(network.to_text(Global)?.as_str(), "10.1.9.32/8");
    /// # Ok(())
    /// # });
    /// ```
    pub fn to_text(&self, alloc: Global) -> Result<String, AllocError> {
        String::from_str(alloc, self.canonical().as_str())
    }
}

impl From<Ipv4Network> for IpNetwork {
    /// Returns the network in the variant `V4`.
    fn from(network: Ipv4Network) -> Self {
        IpNetwork::V4(network)
    }
}

impl From<Ipv6Network> for IpNetwork {
    /// Returns the network in the variant `V6`.
    fn from(network: Ipv6Network) -> Self {
        IpNetwork::V6(network)
    }
}

impl From<IpAddr> for IpNetwork {
    /// Returns the network with only this address, of prefix length 32 or 128.
    fn from(address: IpAddr) -> Self {
        match address {
            IpAddr::V4(address) => IpNetwork::V4(Ipv4Network::from(address)),
            IpAddr::V6(address) => IpNetwork::V6(Ipv6Network::from(address)),
        }
    }
}

impl TryFrom<IpNetwork> for Ipv4Network {
    type Error = WrongFamily;

    /// Returns the network itself, or `WrongFamily` if it is an IPv6 network.
    fn try_from(network: IpNetwork) -> Result<Self, WrongFamily> {
        match network {
            IpNetwork::V4(network) => Ok(network),
            IpNetwork::V6(_) => Err(WrongFamily),
        }
    }
}

impl TryFrom<IpNetwork> for Ipv6Network {
    type Error = WrongFamily;

    /// Returns the network itself, or `WrongFamily` if it is an IPv4 network.
    fn try_from(network: IpNetwork) -> Result<Self, WrongFamily> {
        match network {
            IpNetwork::V4(_) => Err(WrongFamily),
            IpNetwork::V6(network) => Ok(network),
        }
    }
}

impl IntoIterator for &IpNetwork {
    type Item = IpAddr;

    type IntoIter = IpNetworkIterator;

    /// The same as `iter`.
    fn into_iter(self) -> IpNetworkIterator {
        self.iter()
    }
}

impl FromStr for IpNetwork {
    type Err = CidrFault;

    /// The same as `read_bytes`.
    fn from_str(text: &str) -> Result<Self, CidrFault> {
        IpNetwork::read_bytes(text.as_bytes())
    }
}

impl TryFrom<&str> for IpNetwork {
    type Error = CidrFault;

    /// The same as `read_bytes`.
    fn try_from(text: &str) -> Result<Self, CidrFault> {
        IpNetwork::from_str(text)
    }
}

impl fmt::Display for IpNetwork {
    fn fmt(&self, f: &mut fmt::Formatter<'_>) -> fmt::Result {
        f.write_str(self.canonical().as_str())
    }
}
