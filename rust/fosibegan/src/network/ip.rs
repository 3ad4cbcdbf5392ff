//! Networks of either family: how one is made, and what it answers about its addresses.

use super::masks::prefix_of_ip_mask;
use crate::{IpNetworkError, IpNetworkIterator, Ipv4Network, Ipv6Network, NetworkSize};
use core::net::IpAddr;
use core::ops::RangeInclusive;

/// An IP network, either IPv4 or IPv6: an address and a prefix length.
///
/// A network of one family never contains an address of the other, so an IPv4 network does not
/// contain an IPv4-mapped IPv6 address such as `::ffff:10.0.0.1`. A server that listens on both
/// families gets the addresses of IPv4 clients in this form: use `contains(addr.to_canonical())`, or
/// [`contains_mapped`](Self::contains_mapped).
///
/// It is read from the same texts as [`Ipv4Network`] and [`Ipv6Network`], and printed like them.
/// [`cause_of`](Self::cause_of) tells why a text is refused. Networks are ordered by family, IPv4
/// first, then by address, then by prefix length.
///
/// # Examples
///
/// ```
/// use fosibegan::IpNetwork;
/// use std::net::IpAddr;
///
/// let network: IpNetwork = "10.0.0.0/8".parse()?;
/// let addr: IpAddr = "::ffff:10.1.9.32".parse()?;
/// assert!(network.contains(addr.to_canonical()));
/// assert!(!network.contains(addr));
/// # Ok::<(), Box<dyn std::error::Error>>(())
/// ```
#[derive(Clone, Copy, PartialEq, Eq, PartialOrd, Ord, Hash)]
pub enum IpNetwork {
    /// An IPv4 network.
    V4(Ipv4Network),
    /// An IPv6 network.
    V6(Ipv6Network),
}

impl IpNetwork {
    /// Creates a network from an address, whose host bits are kept, and a prefix length.
    ///
    /// # Errors
    ///
    /// Returns [`IpNetworkError::InvalidPrefix`] if the prefix length is greater than 32 for an IPv4
    /// address, or greater than 128 for an IPv6 address.
    ///
    /// # Examples
    ///
    /// ```
    /// use fosibegan::{IpNetwork, IpNetworkError};
    ///
    /// assert_eq!(IpNetwork::new("10.1.9.32".parse()?, 8)?.to_string(), "10.1.9.32/8");
    /// assert_eq!(IpNetwork::new("2001:db8::".parse()?, 33)?.to_string(), "2001:db8::/33");
    /// assert_eq!(IpNetwork::new("10.1.9.32".parse()?, 33), Err(IpNetworkError::InvalidPrefix));
    /// # Ok::<(), Box<dyn std::error::Error>>(())
    /// ```
    #[inline]
    pub const fn new(addr: IpAddr, prefix: u8) -> Result<Self, IpNetworkError> {
        match Self::new_checked(addr, prefix) {
            Some(network) => Ok(network),
            None => Err(IpNetworkError::InvalidPrefix),
        }
    }

    /// Creates a network from an address, whose host bits are kept, and a prefix length. Returns
    /// `None` if the prefix length is greater than 32 for an IPv4 address, or greater than 128 for
    /// an IPv6 address.
    ///
    /// With `unwrap`, a wrong prefix length in a constant is an error at compile time.
    ///
    /// # Examples
    ///
    /// ```
    /// use fosibegan::IpNetwork;
    /// use std::net::{IpAddr, Ipv6Addr};
    ///
    /// const LOOPBACK: IpNetwork =
    ///     IpNetwork::new_checked(IpAddr::V6(Ipv6Addr::LOCALHOST), 128).unwrap();
    ///
    /// assert!(LOOPBACK.contains(Ipv6Addr::LOCALHOST.into()));
    /// assert_eq!(IpNetwork::new_checked(IpAddr::V6(Ipv6Addr::LOCALHOST), 129), None);
    /// ```
    #[inline]
    #[must_use]
    pub const fn new_checked(addr: IpAddr, prefix: u8) -> Option<Self> {
        match addr {
            IpAddr::V4(addr) => match Ipv4Network::new_checked(addr, prefix) {
                Some(network) => Some(Self::V4(network)),
                None => None,
            },
            IpAddr::V6(addr) => match Ipv6Network::new_checked(addr, prefix) {
                Some(network) => Some(Self::V6(network)),
                None => None,
            },
        }
    }

    /// Creates a network from an address, whose host bits are kept, and the prefix length of a
    /// mask.
    ///
    /// Only the prefix length of the mask counts: it may be a mask of the other family.
    ///
    /// # Errors
    ///
    /// Returns [`IpNetworkError::InvalidPrefix`] if the mask is not some ones followed by zeros, or
    /// if its prefix length is too great for the address.
    ///
    /// # Examples
    ///
    /// ```
    /// use fosibegan::IpNetwork;
    ///
    /// let network = IpNetwork::with_netmask("10.1.9.32".parse()?, "255.255.240.0".parse()?)?;
    /// assert_eq!(network.to_string(), "10.1.9.32/20");
    /// assert!(IpNetwork::with_netmask("10.1.9.32".parse()?, "255.0.255.0".parse()?).is_err());
    /// # Ok::<(), Box<dyn std::error::Error>>(())
    /// ```
    pub const fn with_netmask(addr: IpAddr, mask: IpAddr) -> Result<Self, IpNetworkError> {
        match prefix_of_ip_mask(mask) {
            Some(prefix) => Self::new(addr, prefix),
            None => Err(IpNetworkError::InvalidPrefix),
        }
    }

    /// Returns the address that the network was made from, with its host bits.
    ///
    /// # Examples
    ///
    /// ```
    /// use fosibegan::IpNetwork;
    ///
    /// let network: IpNetwork = "2001:db8::1/32".parse()?;
    /// assert_eq!(network.ip().to_string(), "2001:db8::1");
    /// # Ok::<(), Box<dyn std::error::Error>>(())
    /// ```
    #[inline]
    #[must_use]
    pub const fn ip(&self) -> IpAddr {
        match self {
            Self::V4(network) => IpAddr::V4(network.ip()),
            Self::V6(network) => IpAddr::V6(network.ip()),
        }
    }

    /// Returns the prefix length: the number of leading bits that all addresses of the network
    /// share, from 0 to 32 or, for IPv6, to 128.
    ///
    /// # Examples
    ///
    /// ```
    /// use fosibegan::IpNetwork;
    ///
    /// let network: IpNetwork = "2001:db8::1/32".parse()?;
    /// assert_eq!(network.prefix(), 32);
    /// # Ok::<(), Box<dyn std::error::Error>>(())
    /// ```
    #[inline]
    #[must_use]
    pub const fn prefix(&self) -> u8 {
        match self {
            Self::V4(network) => network.prefix(),
            Self::V6(network) => network.prefix(),
        }
    }

    /// Returns the mask in the network's family: as many ones as the prefix length says, followed
    /// by zeros.
    ///
    /// # Examples
    ///
    /// ```
    /// use fosibegan::IpNetwork;
    ///
    /// let network: IpNetwork = "10.1.9.32/20".parse()?;
    /// assert_eq!(network.mask().to_string(), "255.255.240.0");
    /// # Ok::<(), Box<dyn std::error::Error>>(())
    /// ```
    #[inline]
    #[must_use]
    pub const fn mask(&self) -> IpAddr {
        match self {
            Self::V4(network) => IpAddr::V4(network.mask()),
            Self::V6(network) => IpAddr::V6(network.mask()),
        }
    }

    /// Returns the first address of the network, in which all host bits are zeros.
    ///
    /// # Examples
    ///
    /// ```
    /// use fosibegan::IpNetwork;
    ///
    /// let network: IpNetwork = "192.0.2.77/26".parse()?;
    /// assert_eq!(network.network().to_string(), "192.0.2.64");
    /// # Ok::<(), Box<dyn std::error::Error>>(())
    /// ```
    #[inline]
    #[must_use]
    pub const fn network(&self) -> IpAddr {
        match self {
            Self::V4(network) => IpAddr::V4(network.network()),
            Self::V6(network) => IpAddr::V6(network.network()),
        }
    }

    /// Returns the last address of the network, in which all host bits are ones.
    ///
    /// # Examples
    ///
    /// ```
    /// use fosibegan::IpNetwork;
    ///
    /// let network: IpNetwork = "192.0.2.77/26".parse()?;
    /// assert_eq!(network.broadcast().to_string(), "192.0.2.127");
    /// # Ok::<(), Box<dyn std::error::Error>>(())
    /// ```
    #[inline]
    #[must_use]
    pub const fn broadcast(&self) -> IpAddr {
        match self {
            Self::V4(network) => IpAddr::V4(network.broadcast()),
            Self::V6(network) => IpAddr::V6(network.broadcast()),
        }
    }

    /// Returns the addresses of the network as a range, from the first to the last.
    ///
    /// # Examples
    ///
    /// ```
    /// use fosibegan::IpNetwork;
    ///
    /// let network: IpNetwork = "192.0.2.77/26".parse()?;
    /// assert_eq!(network.range(), "192.0.2.64".parse()?..="192.0.2.127".parse()?);
    /// # Ok::<(), Box<dyn std::error::Error>>(())
    /// ```
    #[inline]
    #[must_use]
    pub const fn range(self) -> RangeInclusive<IpAddr> {
        RangeInclusive::new(self.network(), self.broadcast())
    }

    /// Returns `true` if this is an IPv4 network.
    ///
    /// # Examples
    ///
    /// ```
    /// use fosibegan::IpNetwork;
    ///
    /// let network: IpNetwork = "10.0.0.0/8".parse()?;
    /// assert!(network.is_ipv4());
    /// # Ok::<(), Box<dyn std::error::Error>>(())
    /// ```
    #[inline]
    #[must_use]
    pub const fn is_ipv4(&self) -> bool {
        matches!(self, Self::V4(_))
    }

    /// Returns `true` if this is an IPv6 network.
    ///
    /// # Examples
    ///
    /// ```
    /// use fosibegan::IpNetwork;
    ///
    /// let network: IpNetwork = "2001:db8::/32".parse()?;
    /// assert!(network.is_ipv6());
    /// # Ok::<(), Box<dyn std::error::Error>>(())
    /// ```
    #[inline]
    #[must_use]
    pub const fn is_ipv6(&self) -> bool {
        matches!(self, Self::V6(_))
    }

    /// Returns the number of addresses in the network, one less at prefix length 0.
    ///
    /// # Examples
    ///
    /// ```
    /// use fosibegan::{IpNetwork, NetworkSize};
    ///
    /// let network: IpNetwork = "192.0.2.77/26".parse()?;
    /// assert_eq!(network.size(), NetworkSize::V4(64));
    /// # Ok::<(), Box<dyn std::error::Error>>(())
    /// ```
    #[inline]
    #[must_use]
    pub const fn size(&self) -> NetworkSize {
        match self {
            Self::V4(network) => NetworkSize::V4(network.size()),
            Self::V6(network) => NetworkSize::V6(network.size()),
        }
    }

    /// Returns the address number `n` of the network, counted from 0, or `None` if `n` is not less
    /// than [`size`](Self::size).
    ///
    /// # Examples
    ///
    /// ```
    /// use fosibegan::IpNetwork;
    ///
    /// let network: IpNetwork = "192.0.2.77/26".parse()?;
    /// assert_eq!(network.nth(1), Some("192.0.2.65".parse()?));
    /// assert_eq!(network.nth(64), None);
    /// # Ok::<(), Box<dyn std::error::Error>>(())
    /// ```
    #[inline]
    #[must_use]
    pub const fn nth(self, n: u128) -> Option<IpAddr> {
        match self {
            Self::V4(network) => {
                if n > u32::MAX as u128 {
                    return None;
                }
                #[allow(clippy::cast_possible_truncation)]
                match network.nth(n as u32) {
                    Some(addr) => Some(IpAddr::V4(addr)),
                    None => None,
                }
            }
            Self::V6(network) => match network.nth(n) {
                Some(addr) => Some(IpAddr::V6(addr)),
                None => None,
            },
        }
    }

    /// Returns an iterator over all addresses of the network, in ascending order.
    ///
    /// The addresses that a host can have are those of [`hosts`](Self::hosts).
    ///
    /// # Examples
    ///
    /// ```
    /// use fosibegan::IpNetwork;
    ///
    /// let network: IpNetwork = "192.0.2.77/31".parse()?;
    /// let addrs: Vec<String> = network.iter().map(|addr| addr.to_string()).collect();
    /// assert_eq!(addrs, ["192.0.2.76", "192.0.2.77"]);
    /// # Ok::<(), Box<dyn std::error::Error>>(())
    /// ```
    #[inline]
    pub const fn iter(&self) -> IpNetworkIterator {
        match self {
            Self::V4(network) => IpNetworkIterator::of_v4(network.iter()),
            Self::V6(network) => IpNetworkIterator::of_v6(network.iter()),
        }
    }
}
