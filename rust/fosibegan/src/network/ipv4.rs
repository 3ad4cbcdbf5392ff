//! IPv4 networks: how one is made, and what it answers about its addresses.

use super::masks::prefix_of_ipv4_mask;
use crate::{IpNetworkError, Ipv4NetworkIterator};
use core::net::Ipv4Addr;
use core::ops::RangeInclusive;

/// An IPv4 network: an address and a prefix length from 0 to 32.
///
/// It stands for all addresses that begin with the same bits as its own address, as many bits as
/// the prefix length says. The bits after them are the host bits. They are kept as given, so
/// `10.1.9.32/8` and `10.0.0.0/8` are two different values, although they contain the same
/// addresses. [`block`](Self::block) clears the host bits.
///
/// A network is read from `address/prefix length`, from `address/mask`, or from an address alone,
/// which is a network of prefix length 32. It is printed as `address/prefix length`. Networks are
/// ordered by address, then by prefix length.
///
/// # Examples
///
/// ```
/// use fosibegan::Ipv4Network;
/// use std::net::Ipv4Addr;
///
/// let network: Ipv4Network = "192.0.2.77/26".parse()?;
/// assert!(network.contains(Ipv4Addr::new(192, 0, 2, 100)));
/// assert_eq!(network.network(), Ipv4Addr::new(192, 0, 2, 64));
/// assert_eq!(network.to_string(), "192.0.2.77/26");
///
/// let with_mask: Ipv4Network = "192.0.2.77/255.255.255.192".parse()?;
/// assert_eq!(with_mask, network);
/// # Ok::<(), Box<dyn std::error::Error>>(())
/// ```
#[derive(Clone, Copy, PartialEq, Eq, Hash, PartialOrd, Ord)]
pub struct Ipv4Network {
    addr: Ipv4Addr,
    prefix: u8,
}

impl Ipv4Network {
    /// The greatest prefix length.
    pub(crate) const WIDTH: u8 = 32;

    /// Creates a network from an address, whose host bits are kept, and a prefix length.
    ///
    /// # Errors
    ///
    /// Returns [`IpNetworkError::InvalidPrefix`] if the prefix length is greater than 32.
    ///
    /// # Examples
    ///
    /// ```
    /// use fosibegan::{IpNetworkError, Ipv4Network};
    /// use std::net::Ipv4Addr;
    ///
    /// let addr = Ipv4Addr::new(10, 1, 9, 32);
    /// assert_eq!(Ipv4Network::new(addr, 8)?.to_string(), "10.1.9.32/8");
    /// assert_eq!(Ipv4Network::new(addr, 33), Err(IpNetworkError::InvalidPrefix));
    /// # Ok::<(), Box<dyn std::error::Error>>(())
    /// ```
    #[inline]
    pub const fn new(addr: Ipv4Addr, prefix: u8) -> Result<Self, IpNetworkError> {
        match Self::new_checked(addr, prefix) {
            Some(network) => Ok(network),
            None => Err(IpNetworkError::InvalidPrefix),
        }
    }

    /// Creates a network from an address, whose host bits are kept, and a prefix length. Returns
    /// `None` if the prefix length is greater than 32.
    ///
    /// With `unwrap`, a wrong prefix length in a constant is an error at compile time.
    ///
    /// # Examples
    ///
    /// ```
    /// use fosibegan::Ipv4Network;
    /// use std::net::Ipv4Addr;
    ///
    /// const PRIVATE: Ipv4Network =
    ///     Ipv4Network::new_checked(Ipv4Addr::new(10, 0, 0, 0), 8).unwrap();
    ///
    /// assert!(PRIVATE.contains(Ipv4Addr::new(10, 1, 9, 32)));
    /// assert_eq!(Ipv4Network::new_checked(Ipv4Addr::LOCALHOST, 33), None);
    /// ```
    #[inline]
    #[must_use]
    pub const fn new_checked(addr: Ipv4Addr, prefix: u8) -> Option<Self> {
        if prefix > Self::WIDTH {
            None
        } else {
            Some(Self { addr, prefix })
        }
    }

    /// Creates a network from an address, whose host bits are kept, and a mask.
    ///
    /// # Errors
    ///
    /// Returns [`IpNetworkError::InvalidPrefix`] if the mask is not some ones followed by zeros.
    ///
    /// # Examples
    ///
    /// ```
    /// use fosibegan::Ipv4Network;
    /// use std::net::Ipv4Addr;
    ///
    /// let addr = Ipv4Addr::new(10, 1, 9, 32);
    /// let network = Ipv4Network::with_netmask(addr, Ipv4Addr::new(255, 255, 240, 0))?;
    /// assert_eq!(network.prefix(), 20);
    /// assert!(Ipv4Network::with_netmask(addr, Ipv4Addr::new(255, 0, 255, 0)).is_err());
    /// # Ok::<(), Box<dyn std::error::Error>>(())
    /// ```
    pub const fn with_netmask(addr: Ipv4Addr, mask: Ipv4Addr) -> Result<Self, IpNetworkError> {
        match prefix_of_ipv4_mask(mask) {
            Some(prefix) => Ok(Self { addr, prefix }),
            None => Err(IpNetworkError::InvalidPrefix),
        }
    }

    /// Returns the address that the network was made from, with its host bits.
    ///
    /// # Examples
    ///
    /// ```
    /// use fosibegan::Ipv4Network;
    /// use std::net::Ipv4Addr;
    ///
    /// let network: Ipv4Network = "10.1.9.32/8".parse()?;
    /// assert_eq!(network.ip(), Ipv4Addr::new(10, 1, 9, 32));
    /// # Ok::<(), Box<dyn std::error::Error>>(())
    /// ```
    #[inline]
    #[must_use]
    pub const fn ip(self) -> Ipv4Addr {
        self.addr
    }

    /// Returns the prefix length: the number of leading bits that all addresses of the network
    /// share, from 0 to 32.
    ///
    /// # Examples
    ///
    /// ```
    /// use fosibegan::Ipv4Network;
    ///
    /// let network: Ipv4Network = "10.1.9.32/8".parse()?;
    /// assert_eq!(network.prefix(), 8);
    /// # Ok::<(), Box<dyn std::error::Error>>(())
    /// ```
    #[inline]
    #[must_use]
    pub const fn prefix(self) -> u8 {
        self.prefix
    }

    /// Returns the mask: as many ones as the prefix length says, followed by zeros.
    ///
    /// # Examples
    ///
    /// ```
    /// use fosibegan::Ipv4Network;
    /// use std::net::Ipv4Addr;
    ///
    /// let network: Ipv4Network = "10.1.9.32/20".parse()?;
    /// assert_eq!(network.mask(), Ipv4Addr::new(255, 255, 240, 0));
    /// # Ok::<(), Box<dyn std::error::Error>>(())
    /// ```
    #[inline]
    #[must_use]
    pub const fn mask(&self) -> Ipv4Addr {
        Ipv4Addr::from_bits(self.mask_bits())
    }

    /// Returns the first address of the network, in which all host bits are zeros.
    ///
    /// # Examples
    ///
    /// ```
    /// use fosibegan::Ipv4Network;
    /// use std::net::Ipv4Addr;
    ///
    /// let network: Ipv4Network = "192.0.2.77/26".parse()?;
    /// assert_eq!(network.network(), Ipv4Addr::new(192, 0, 2, 64));
    /// # Ok::<(), Box<dyn std::error::Error>>(())
    /// ```
    #[inline]
    #[must_use]
    pub const fn network(&self) -> Ipv4Addr {
        Ipv4Addr::from_bits(self.first())
    }

    /// Returns the last address of the network, in which all host bits are ones.
    ///
    /// # Examples
    ///
    /// ```
    /// use fosibegan::Ipv4Network;
    /// use std::net::Ipv4Addr;
    ///
    /// let network: Ipv4Network = "192.0.2.77/26".parse()?;
    /// assert_eq!(network.broadcast(), Ipv4Addr::new(192, 0, 2, 127));
    /// # Ok::<(), Box<dyn std::error::Error>>(())
    /// ```
    #[inline]
    #[must_use]
    pub const fn broadcast(&self) -> Ipv4Addr {
        Ipv4Addr::from_bits(self.last())
    }

    /// Returns the addresses of the network as a range, from the first to the last.
    ///
    /// # Examples
    ///
    /// ```
    /// use fosibegan::Ipv4Network;
    /// use std::net::Ipv4Addr;
    ///
    /// let network: Ipv4Network = "192.0.2.77/26".parse()?;
    /// let range = Ipv4Addr::new(192, 0, 2, 64)..=Ipv4Addr::new(192, 0, 2, 127);
    /// assert_eq!(network.range(), range);
    /// # Ok::<(), Box<dyn std::error::Error>>(())
    /// ```
    #[inline]
    #[must_use]
    pub const fn range(self) -> RangeInclusive<Ipv4Addr> {
        RangeInclusive::new(self.network(), self.broadcast())
    }

    /// Returns `true` if the address is in the network.
    ///
    /// # Examples
    ///
    /// ```
    /// use fosibegan::Ipv4Network;
    /// use std::net::Ipv4Addr;
    ///
    /// let network: Ipv4Network = "192.0.2.77/26".parse()?;
    /// assert!(network.contains(Ipv4Addr::new(192, 0, 2, 127)));
    /// assert!(!network.contains(Ipv4Addr::new(192, 0, 2, 128)));
    /// # Ok::<(), Box<dyn std::error::Error>>(())
    /// ```
    #[inline]
    #[must_use]
    pub const fn contains(&self, addr: Ipv4Addr) -> bool {
        (self.addr.to_bits() ^ addr.to_bits()) & self.mask_bits() == 0
    }

    /// Returns the number of addresses in the network.
    ///
    /// At prefix length 0, where the number does not fit in 32 bits, this is `u32::MAX`: one less.
    ///
    /// # Examples
    ///
    /// ```
    /// use fosibegan::Ipv4Network;
    ///
    /// let network: Ipv4Network = "192.0.2.77/26".parse()?;
    /// assert_eq!(network.size(), 64);
    /// # Ok::<(), Box<dyn std::error::Error>>(())
    /// ```
    #[inline]
    #[must_use]
    pub const fn size(self) -> u32 {
        if self.prefix == 0 {
            u32::MAX
        } else {
            1 << (Self::WIDTH - self.prefix)
        }
    }

    /// Returns the address number `n` of the network, counted from 0, or `None` if `n` is not less
    /// than [`size`](Self::size).
    ///
    /// The last address of `0.0.0.0/0` has no such number, because the size of this network is one
    /// less than the number of its addresses.
    ///
    /// # Examples
    ///
    /// ```
    /// use fosibegan::Ipv4Network;
    /// use std::net::Ipv4Addr;
    ///
    /// let network: Ipv4Network = "192.0.2.77/26".parse()?;
    /// assert_eq!(network.nth(1), Some(Ipv4Addr::new(192, 0, 2, 65)));
    /// assert_eq!(network.nth(64), None);
    /// # Ok::<(), Box<dyn std::error::Error>>(())
    /// ```
    #[inline]
    #[must_use]
    pub const fn nth(self, n: u32) -> Option<Ipv4Addr> {
        if n < self.size() {
            Some(Ipv4Addr::from_bits(self.first() | n))
        } else {
            None
        }
    }

    /// Returns an iterator over all addresses of the network, in ascending order.
    ///
    /// The addresses that a host can have are those of [`hosts`](Self::hosts).
    ///
    /// # Examples
    ///
    /// ```
    /// use fosibegan::Ipv4Network;
    /// use std::net::Ipv4Addr;
    ///
    /// let network: Ipv4Network = "192.0.2.77/31".parse()?;
    /// let addrs = [Ipv4Addr::new(192, 0, 2, 76), Ipv4Addr::new(192, 0, 2, 77)];
    /// assert!(network.iter().eq(addrs));
    /// # Ok::<(), Box<dyn std::error::Error>>(())
    /// ```
    #[inline]
    pub const fn iter(self) -> Ipv4NetworkIterator {
        Ipv4NetworkIterator::between(self.first(), self.last())
    }

    /// The network of one address.
    #[inline]
    pub(super) const fn of_address(addr: Ipv4Addr) -> Self {
        Self {
            addr,
            prefix: Self::WIDTH,
        }
    }

    /// The network of the same prefix length at another address.
    #[inline]
    pub(super) const fn with_ip(self, addr: u32) -> Self {
        Self {
            addr: Ipv4Addr::from_bits(addr),
            prefix: self.prefix,
        }
    }

    /// The mask, as a number.
    #[inline]
    #[allow(clippy::cast_possible_truncation, clippy::cast_sign_loss)]
    const fn mask_bits(self) -> u32 {
        // In 64 bits, a shift by 32 needs no case of its own.
        !(u32::MAX as u64 >> self.prefix) as u32
    }

    /// The first address, as a number.
    #[inline]
    pub(super) const fn first(self) -> u32 {
        self.addr.to_bits() & self.mask_bits()
    }

    /// The last address, as a number.
    #[inline]
    pub(super) const fn last(self) -> u32 {
        self.addr.to_bits() | !self.mask_bits()
    }
}
