//! The trait of the three types of networks.

use crate::{Addresses, IpNetwork, IpNetworkError, Ipv4Network, Ipv6Network};
use core::fmt::{Debug, Display};
use core::hash::Hash;
use core::net::{IpAddr, Ipv4Addr, Ipv6Addr};
use core::str::FromStr;

/// A type of networks that a set or a map can have: [`IpNetwork`], of either family, or
/// [`Ipv4Network`] or [`Ipv6Network`] alone. Other crates cannot implement it.
///
/// It has what code for any of the three types needs most. Each of these types has the same methods
/// itself, and more, so that the trait need not be imported to call them.
///
/// # Examples
///
/// ```
/// use fosibegan::{AddressSet, Ipv4Network, Network};
///
/// /// Takes a network out of a pool, or says that it is not free.
/// fn take<N: Network>(pool: &mut AddressSet<N>, network: N) -> Result<(), String> {
///     if !pool.covers(network) {
///         return Err(format!("{network} is not free"));
///     }
///     pool.remove(network);
///     Ok(())
/// }
///
/// let mut pool: AddressSet<Ipv4Network> = ["10.0.0.0/8".parse::<Ipv4Network>()?].into();
/// assert_eq!(take(&mut pool, "10.1.0.0/16".parse()?), Ok(()));
/// assert_eq!(take(&mut pool, "10.1.2.0/24".parse()?), Err("10.1.2.0/24 is not free".to_string()));
/// # Ok::<(), Box<dyn std::error::Error>>(())
/// ```
pub trait Network:
    Sealed
    + Copy
    + Ord
    + Hash
    + Debug
    + Display
    + Send
    + Sync
    + Unpin
    + 'static
    + Addresses<Self>
    + From<Self::Addr>
    + Into<IpNetwork>
    + FromStr<Err = IpNetworkError>
{
    /// The addresses of these networks, as std has them.
    type Addr: Copy
        + Ord
        + Hash
        + Debug
        + Display
        + FromStr
        + Into<IpAddr>
        + Send
        + Sync
        + Unpin
        + 'static;

    /// Returns the address that the network was made from, with its host bits.
    ///
    /// # Examples
    ///
    /// ```
    /// use fosibegan::{Ipv4Network, Network};
    ///
    /// fn has_host_bits<N: Network>(network: N) -> bool {
    ///     network.ip() != network.network()
    /// }
    ///
    /// assert!(has_host_bits("10.1.2.3/8".parse::<Ipv4Network>()?));
    /// # Ok::<(), Box<dyn std::error::Error>>(())
    /// ```
    #[must_use]
    fn ip(&self) -> Self::Addr;

    /// Returns the prefix length.
    ///
    /// # Examples
    ///
    /// ```
    /// use fosibegan::{Ipv4Network, Network};
    ///
    /// fn longest<N: Network>(networks: &[N]) -> Option<u8> {
    ///     networks.iter().map(|network| network.prefix()).max()
    /// }
    ///
    /// let networks: [Ipv4Network; 2] = ["10.0.0.0/8".parse()?, "192.0.2.0/24".parse()?];
    /// assert_eq!(longest(&networks), Some(24));
    /// # Ok::<(), Box<dyn std::error::Error>>(())
    /// ```
    #[must_use]
    fn prefix(&self) -> u8;

    /// Returns the first address of the network.
    ///
    /// # Examples
    ///
    /// ```
    /// use fosibegan::{IpNetwork, Network};
    ///
    /// fn first<N: Network>(network: N) -> N::Addr {
    ///     network.network()
    /// }
    ///
    /// assert_eq!(first("10.1.2.3/8".parse::<IpNetwork>()?).to_string(), "10.0.0.0");
    /// # Ok::<(), Box<dyn std::error::Error>>(())
    /// ```
    #[must_use]
    fn network(&self) -> Self::Addr;

    /// Returns the last address of the network.
    ///
    /// # Examples
    ///
    /// ```
    /// use fosibegan::{IpNetwork, Network};
    ///
    /// fn last<N: Network>(network: N) -> N::Addr {
    ///     network.broadcast()
    /// }
    ///
    /// assert_eq!(last("10.1.2.3/8".parse::<IpNetwork>()?).to_string(), "10.255.255.255");
    /// # Ok::<(), Box<dyn std::error::Error>>(())
    /// ```
    #[must_use]
    fn broadcast(&self) -> Self::Addr;

    /// Returns the network with its host bits cleared.
    ///
    /// # Examples
    ///
    /// ```
    /// use fosibegan::{Ipv6Network, Network};
    ///
    /// fn without_host_bits<N: Network>(networks: &[N]) -> Vec<N> {
    ///     networks.iter().map(|network| network.block()).collect()
    /// }
    ///
    /// let networks: [Ipv6Network; 1] = ["2001:db8::1/32".parse()?];
    /// assert_eq!(without_host_bits(&networks), ["2001:db8::/32".parse()?]);
    /// # Ok::<(), Box<dyn std::error::Error>>(())
    /// ```
    #[must_use]
    fn block(&self) -> Self;

    /// Returns `true` if the address is in the network. No address of the other family is, not even
    /// an IPv4-mapped one.
    ///
    /// # Examples
    ///
    /// ```
    /// use fosibegan::{Ipv4Network, Network};
    ///
    /// fn any_contains<N: Network>(networks: &[N], addr: N::Addr) -> bool {
    ///     networks.iter().any(|network| network.contains(addr))
    /// }
    ///
    /// let networks: [Ipv4Network; 2] = ["10.0.0.0/8".parse()?, "192.0.2.0/24".parse()?];
    /// assert!(any_contains(&networks, "192.0.2.7".parse()?));
    /// # Ok::<(), Box<dyn std::error::Error>>(())
    /// ```
    #[must_use]
    fn contains(&self, addr: Self::Addr) -> bool;

    /// Returns `true` if each address of this network is also in `other`. Host bits make no
    /// difference.
    ///
    /// # Examples
    ///
    /// ```
    /// use fosibegan::{Ipv4Network, Network};
    ///
    /// fn all_within<N: Network>(networks: &[N], pool: N) -> bool {
    ///     networks.iter().all(|network| network.is_subnet_of(pool))
    /// }
    ///
    /// let networks: [Ipv4Network; 2] = ["10.0.0.0/9".parse()?, "10.128.0.0/9".parse()?];
    /// assert!(all_within(&networks, "10.0.0.0/8".parse()?));
    /// # Ok::<(), Box<dyn std::error::Error>>(())
    /// ```
    #[must_use]
    fn is_subnet_of(&self, other: Self) -> bool;

    /// Returns `true` if some address is in both networks. Host bits make no difference.
    ///
    /// # Examples
    ///
    /// ```
    /// use fosibegan::{Ipv4Network, Network};
    ///
    /// fn is_taken<N: Network>(taken: &[N], wanted: N) -> bool {
    ///     taken.iter().any(|network| network.overlaps(wanted))
    /// }
    ///
    /// let taken: [Ipv4Network; 1] = ["10.1.0.0/16".parse()?];
    /// assert!(is_taken(&taken, "10.0.0.0/8".parse()?));
    /// # Ok::<(), Box<dyn std::error::Error>>(())
    /// ```
    #[must_use]
    fn overlaps(&self, other: Self) -> bool;

    #[doc(hidden)]
    fn address_of_v4(address: Ipv4Addr, _: Here) -> Self::Addr;
    #[doc(hidden)]
    fn address_of_v6(address: Ipv6Addr, _: Here) -> Self::Addr;
    #[doc(hidden)]
    fn either_address(address: Self::Addr) -> IpAddr;
}

/// What a call has to be given that only this crate may make: it answers for one family alone.
#[derive(Clone, Copy, Debug)]
pub struct Here(pub(crate) ());

/// What sets and maps need of a network. A set or a map has two parts, one for each family; that of
/// a family which `N` has not stays empty.
pub trait Sealed: Sized {
    /// Whether networks of this type may be of IPv4.
    #[doc(hidden)]
    const HAS_V4: bool;
    /// Whether they may be of IPv6.
    #[doc(hidden)]
    const HAS_V6: bool;

    #[doc(hidden)]
    fn of_v4(network: Ipv4Network, _: Here) -> Self;
    #[doc(hidden)]
    fn of_v6(network: Ipv6Network, _: Here) -> Self;
    #[doc(hidden)]
    fn either(self) -> IpNetwork;
}

/// The methods of the trait: each calls the one that the type itself has.
macro_rules! methods_of_the_type {
    ($($method:ident($($other:ident: $type:ty)?) -> $answer:ty),+) => {$(
        #[inline]
        fn $method(&self $(, $other: $type)?) -> $answer {
            let network = *self;
            network.$method($($other)?)
        }
    )+};
    () => {
        methods_of_the_type! {
            ip() -> Self::Addr, prefix() -> u8, network() -> Self::Addr, broadcast() -> Self::Addr,
            block() -> Self, contains(addr: Self::Addr) -> bool,
            is_subnet_of(other: Self) -> bool, overlaps(other: Self) -> bool
        }
    };
}

/// The part of a family that a type of networks has not stays empty.
#[cold]
fn other_family() -> ! {
    unreachable!("networks of one family hold none of the other")
}

impl Sealed for Ipv4Network {
    const HAS_V4: bool = true;
    const HAS_V6: bool = false;

    #[inline]
    fn of_v4(network: Ipv4Network, _: Here) -> Self {
        network
    }

    fn of_v6(_: Ipv6Network, _: Here) -> Self {
        other_family()
    }

    #[inline]
    fn either(self) -> IpNetwork {
        IpNetwork::V4(self)
    }
}

impl Network for Ipv4Network {
    type Addr = Ipv4Addr;

    methods_of_the_type!();

    #[inline]
    fn address_of_v4(address: Ipv4Addr, _: Here) -> Ipv4Addr {
        address
    }

    fn address_of_v6(_: Ipv6Addr, _: Here) -> Ipv4Addr {
        other_family()
    }

    #[inline]
    fn either_address(address: Ipv4Addr) -> IpAddr {
        IpAddr::V4(address)
    }
}

impl Sealed for Ipv6Network {
    const HAS_V4: bool = false;
    const HAS_V6: bool = true;

    fn of_v4(_: Ipv4Network, _: Here) -> Self {
        other_family()
    }

    #[inline]
    fn of_v6(network: Ipv6Network, _: Here) -> Self {
        network
    }

    #[inline]
    fn either(self) -> IpNetwork {
        IpNetwork::V6(self)
    }
}

impl Network for Ipv6Network {
    type Addr = Ipv6Addr;

    methods_of_the_type!();

    fn address_of_v4(_: Ipv4Addr, _: Here) -> Ipv6Addr {
        other_family()
    }

    #[inline]
    fn address_of_v6(address: Ipv6Addr, _: Here) -> Ipv6Addr {
        address
    }

    #[inline]
    fn either_address(address: Ipv6Addr) -> IpAddr {
        IpAddr::V6(address)
    }
}

impl Sealed for IpNetwork {
    const HAS_V4: bool = true;
    const HAS_V6: bool = true;

    #[inline]
    fn of_v4(network: Ipv4Network, _: Here) -> Self {
        IpNetwork::V4(network)
    }

    #[inline]
    fn of_v6(network: Ipv6Network, _: Here) -> Self {
        IpNetwork::V6(network)
    }

    #[inline]
    fn either(self) -> IpNetwork {
        self
    }
}

impl Network for IpNetwork {
    type Addr = IpAddr;

    methods_of_the_type!();

    #[inline]
    fn address_of_v4(address: Ipv4Addr, _: Here) -> IpAddr {
        IpAddr::V4(address)
    }

    #[inline]
    fn address_of_v6(address: Ipv6Addr, _: Here) -> IpAddr {
        IpAddr::V6(address)
    }

    #[inline]
    fn either_address(address: IpAddr) -> IpAddr {
        address
    }
}
