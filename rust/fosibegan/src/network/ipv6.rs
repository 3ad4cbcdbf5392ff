//! IPv6 networks: how one is made, and what it answers about its addresses.

use super::masks::prefix_of_ipv6_mask;
use crate::{IpNetworkError, Ipv6NetworkIterator};
use core::net::Ipv6Addr;
use core::ops::RangeInclusive;

/// An IPv6 network: an address and a prefix length from 0 to 128.
///
/// It stands for all addresses that begin with the same bits as its own address, as many bits as
/// the prefix length says. The bits after them are the host bits. They are kept as given, so
/// `2001:db8::1/32` and `2001:db8::/32` are two different values, although they contain the same
/// addresses. [`block`](Self::block) clears the host bits.
///
/// A network is read from `address/prefix length`, or from an address alone, which is a network of
/// prefix length 128. It is printed as `address/prefix length`. Networks are ordered by address,
/// then by prefix length.
///
/// An IPv4-mapped address, such as `::ffff:10.0.0.1`, is an IPv6 address like any other here.
/// [`IpNetwork::contains_mapped`](crate::IpNetwork::contains_mapped) treats it as the IPv4 address
/// as well.
///
/// # Examples
///
/// ```
/// use fosibegan::Ipv6Network;
/// use std::net::Ipv6Addr;
///
/// let network: Ipv6Network = "2001:db8::1/32".parse()?;
/// assert!(network.contains(Ipv6Addr::new(0x2001, 0xdb8, 0, 0, 0, 0, 0, 2)));
/// assert_eq!(network.network(), Ipv6Addr::new(0x2001, 0xdb8, 0, 0, 0, 0, 0, 0));
/// assert_eq!(network.to_string(), "2001:db8::1/32");
/// # Ok::<(), Box<dyn std::error::Error>>(())
/// ```
#[derive(Clone, Copy, PartialEq, Eq, Hash, PartialOrd, Ord)]
pub struct Ipv6Network {
    addr: Ipv6Addr,
    prefix: u8,
}

impl Ipv6Network {
    /// The greatest prefix length.
    pub(crate) const WIDTH: u8 = 128;

    /// Creates a network from an address, whose host bits are kept, and a prefix length.
    ///
    /// # Errors
    ///
    /// Returns [`IpNetworkError::InvalidPrefix`] if the prefix length is greater than 128.
    ///
    /// # Examples
    ///
    /// ```
    /// use fosibegan::{IpNetworkError, Ipv6Network};
    /// use std::net::Ipv6Addr;
    ///
    /// let addr: Ipv6Addr = "2001:db8::1".parse()?;
    /// assert_eq!(Ipv6Network::new(addr, 32)?.to_string(), "2001:db8::1/32");
    /// assert_eq!(Ipv6Network::new(addr, 129), Err(IpNetworkError::InvalidPrefix));
    /// # Ok::<(), Box<dyn std::error::Error>>(())
    /// ```
    #[inline]
    pub const fn new(addr: Ipv6Addr, prefix: u8) -> Result<Self, IpNetworkError> {
        match Self::new_checked(addr, prefix) {
            Some(network) => Ok(network),
            None => Err(IpNetworkError::InvalidPrefix),
        }
    }

    /// Creates a network from an address, whose host bits are kept, and a prefix length. Returns
    /// `None` if the prefix length is greater than 128.
    ///
    /// With `unwrap`, a wrong prefix length in a constant is an error at compile time.
    ///
    /// # Examples
    ///
    /// ```
    /// use fosibegan::Ipv6Network;
    /// use std::net::Ipv6Addr;
    ///
    /// const LOOPBACK: Ipv6Network = Ipv6Network::new_checked(Ipv6Addr::LOCALHOST, 128).unwrap();
    ///
    /// assert!(LOOPBACK.contains(Ipv6Addr::LOCALHOST));
    /// assert_eq!(Ipv6Network::new_checked(Ipv6Addr::LOCALHOST, 129), None);
    /// ```
    #[inline]
    #[must_use]
    pub const fn new_checked(addr: Ipv6Addr, prefix: u8) -> Option<Self> {
        if prefix > Self::WIDTH {
            None
        } else {
            Some(Self { addr, prefix })
        }
    }

    /// Creates a network from an address, whose host bits are kept, and a mask.
    ///
    /// # Errors
    ///
    /// Returns [`IpNetworkError::InvalidPrefix`] if the mask is not some ones followed by zeros.
    ///
    /// # Examples
    ///
    /// ```
    /// use fosibegan::Ipv6Network;
    /// use std::net::Ipv6Addr;
    ///
    /// let addr: Ipv6Addr = "2001:db8::1".parse()?;
    /// let network = Ipv6Network::with_netmask(addr, "ffff:ffff:f000::".parse()?)?;
    /// assert_eq!(network.prefix(), 36);
    /// assert!(Ipv6Network::with_netmask(addr, Ipv6Addr::LOCALHOST).is_err());
    /// # Ok::<(), Box<dyn std::error::Error>>(())
    /// ```
    pub const fn with_netmask(addr: Ipv6Addr, mask: Ipv6Addr) -> Result<Self, IpNetworkError> {
        match prefix_of_ipv6_mask(mask) {
            Some(prefix) => Ok(Self { addr, prefix }),
            None => Err(IpNetworkError::InvalidPrefix),
        }
    }

    /// Returns the address that the network was made from, with its host bits.
    ///
    /// # Examples
    ///
    /// ```
    /// use fosibegan::Ipv6Network;
    ///
    /// let network: Ipv6Network = "2001:db8::1/32".parse()?;
    /// assert_eq!(network.ip().to_string(), "2001:db8::1");
    /// # Ok::<(), Box<dyn std::error::Error>>(())
    /// ```
    #[inline]
    #[must_use]
    pub const fn ip(&self) -> Ipv6Addr {
        self.addr
    }

    /// Returns the prefix length: the number of leading bits that all addresses of the network
    /// share, from 0 to 128.
    ///
    /// # Examples
    ///
    /// ```
    /// use fosibegan::Ipv6Network;
    ///
    /// let network: Ipv6Network = "2001:db8::1/32".parse()?;
    /// assert_eq!(network.prefix(), 32);
    /// # Ok::<(), Box<dyn std::error::Error>>(())
    /// ```
    #[inline]
    #[must_use]
    pub const fn prefix(&self) -> u8 {
        self.prefix
    }

    /// Returns the mask: as many ones as the prefix length says, followed by zeros.
    ///
    /// # Examples
    ///
    /// ```
    /// use fosibegan::Ipv6Network;
    ///
    /// let network: Ipv6Network = "2001:db8::1/36".parse()?;
    /// assert_eq!(network.mask().to_string(), "ffff:ffff:f000::");
    /// # Ok::<(), Box<dyn std::error::Error>>(())
    /// ```
    #[inline]
    #[must_use]
    pub const fn mask(&self) -> Ipv6Addr {
        Ipv6Addr::from_bits(!self.host_bits())
    }

    /// Returns the first address of the network, in which all host bits are zeros.
    ///
    /// # Examples
    ///
    /// ```
    /// use fosibegan::Ipv6Network;
    ///
    /// let network: Ipv6Network = "2001:db8::1/32".parse()?;
    /// assert_eq!(network.network().to_string(), "2001:db8::");
    /// # Ok::<(), Box<dyn std::error::Error>>(())
    /// ```
    #[inline]
    #[must_use]
    pub const fn network(&self) -> Ipv6Addr {
        Ipv6Addr::from_bits(self.first())
    }

    /// Returns the last address of the network, in which all host bits are ones.
    ///
    /// # Examples
    ///
    /// ```
    /// use fosibegan::Ipv6Network;
    ///
    /// let network: Ipv6Network = "2001:db8::1/32".parse()?;
    /// assert_eq!(network.broadcast().to_string(), "2001:db8:ffff:ffff:ffff:ffff:ffff:ffff");
    /// # Ok::<(), Box<dyn std::error::Error>>(())
    /// ```
    #[inline]
    #[must_use]
    pub const fn broadcast(&self) -> Ipv6Addr {
        Ipv6Addr::from_bits(self.last())
    }

    /// Returns the addresses of the network as a range, from the first to the last.
    ///
    /// # Examples
    ///
    /// ```
    /// use fosibegan::Ipv6Network;
    ///
    /// let network: Ipv6Network = "2001:db8::1/112".parse()?;
    /// assert_eq!(network.range(), "2001:db8::".parse()?..="2001:db8::ffff".parse()?);
    /// # Ok::<(), Box<dyn std::error::Error>>(())
    /// ```
    #[inline]
    #[must_use]
    pub const fn range(self) -> RangeInclusive<Ipv6Addr> {
        RangeInclusive::new(self.network(), self.broadcast())
    }

    /// Returns `true` if the address is in the network.
    ///
    /// # Examples
    ///
    /// ```
    /// use fosibegan::Ipv6Network;
    ///
    /// let network: Ipv6Network = "2001:db8::1/112".parse()?;
    /// assert!(network.contains("2001:db8::ffff".parse()?));
    /// assert!(!network.contains("2001:db8::1:0".parse()?));
    /// # Ok::<(), Box<dyn std::error::Error>>(())
    /// ```
    #[inline]
    #[must_use]
    pub const fn contains(&self, addr: Ipv6Addr) -> bool {
        // The bits in which they differ are host bits.
        self.addr.to_bits() ^ addr.to_bits() <= self.host_bits()
    }

    /// Returns the number of addresses in the network.
    ///
    /// At prefix length 0, where the number does not fit in 128 bits, this is `u128::MAX`: one less.
    ///
    /// # Examples
    ///
    /// ```
    /// use fosibegan::Ipv6Network;
    ///
    /// let network: Ipv6Network = "2001:db8::1/112".parse()?;
    /// assert_eq!(network.size(), 65_536);
    /// # Ok::<(), Box<dyn std::error::Error>>(())
    /// ```
    #[inline]
    #[must_use]
    pub const fn size(&self) -> u128 {
        if self.prefix == 0 {
            u128::MAX
        } else {
            1 << (Self::WIDTH - self.prefix)
        }
    }

    /// Returns the address number `n` of the network, counted from 0, or `None` if `n` is not less
    /// than [`size`](Self::size).
    ///
    /// The last address of `::/0` has no such number, because the size of this network is one
    /// less than the number of its addresses.
    ///
    /// # Examples
    ///
    /// ```
    /// use fosibegan::Ipv6Network;
    ///
    /// let network: Ipv6Network = "2001:db8::1/112".parse()?;
    /// assert_eq!(network.nth(2), Some("2001:db8::2".parse()?));
    /// assert_eq!(network.nth(65_536), None);
    /// # Ok::<(), Box<dyn std::error::Error>>(())
    /// ```
    #[inline]
    #[must_use]
    pub const fn nth(self, n: u128) -> Option<Ipv6Addr> {
        if n < self.size() {
            Some(Ipv6Addr::from_bits(self.first() | n))
        } else {
            None
        }
    }

    /// Returns an iterator over all addresses of the network, in ascending order.
    ///
    /// The addresses that a host can have are those of [`hosts`](Self::hosts).
    ///
    /// # Examples
    ///
    /// ```
    /// use fosibegan::Ipv6Network;
    ///
    /// let network: Ipv6Network = "2001:db8::1/127".parse()?;
    /// let addrs: Vec<String> = network.iter().map(|addr| addr.to_string()).collect();
    /// assert_eq!(addrs, ["2001:db8::", "2001:db8::1"]);
    /// # Ok::<(), Box<dyn std::error::Error>>(())
    /// ```
    #[inline]
    pub const fn iter(&self) -> Ipv6NetworkIterator {
        Ipv6NetworkIterator::between(self.first(), self.last())
    }

    /// The network of one address.
    #[inline]
    pub(super) const fn of_address(addr: Ipv6Addr) -> Self {
        Self {
            addr,
            prefix: Self::WIDTH,
        }
    }

    /// The network of the same prefix length at another address.
    #[inline]
    pub(super) const fn with_ip(self, addr: u128) -> Self {
        Self {
            addr: Ipv6Addr::from_bits(addr),
            prefix: self.prefix,
        }
    }

    /// The number whose ones are the host bits.
    #[inline]
    pub(super) const fn host_bits(self) -> u128 {
        // No number is shifted by its whole width.
        if self.prefix == Self::WIDTH {
            0
        } else {
            u128::MAX >> self.prefix
        }
    }

    /// The first address, as a number.
    #[inline]
    pub(super) const fn first(self) -> u128 {
        self.addr.to_bits() & !self.host_bits()
    }

    /// The last address, as a number.
    #[inline]
    pub(super) const fn last(self) -> u128 {
        self.addr.to_bits() | self.host_bits()
    }
}
