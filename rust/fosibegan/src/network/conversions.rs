//! Networks from addresses, pairs and arrays, and from networks of the other types.

use crate::{
    IpNetwork, IpNetworkError, IpNetworkIterator, Ipv4Network, Ipv4NetworkIterator, Ipv6Network,
    Ipv6NetworkIterator, WrongFamilyError,
};
use core::net::{IpAddr, Ipv4Addr, Ipv6Addr};

/// From what std makes this address of, and from pairs of it and a prefix length.
macro_rules! of_addresses {
    ($($name:ident: $address:ident of $($source:ty)*;)*) => {$(
        $(
            impl From<$source> for $name {
                /// The network of this address alone: its prefix length is the greatest.
                #[inline]
                fn from(addr: $source) -> Self {
                    Self::of_address(addr.into())
                }
            }
        )*

        impl TryFrom<($address, u8)> for $name {
            type Error = IpNetworkError;

            /// The network of this address, whose host bits are kept, and this prefix length.
            #[inline]
            fn try_from((addr, prefix): ($address, u8)) -> Result<Self, IpNetworkError> {
                Self::new(addr, prefix)
            }
        }
    )*};
}

of_addresses! {
    Ipv4Network: Ipv4Addr of Ipv4Addr [u8; 4];
    Ipv6Network: Ipv6Addr of Ipv6Addr [u8; 16] [u16; 8];
    IpNetwork: IpAddr of IpAddr Ipv4Addr Ipv6Addr [u8; 4] [u8; 16] [u16; 8];
}

impl IpNetwork {
    /// The network of one address.
    #[inline]
    fn of_address(addr: IpAddr) -> Self {
        match addr {
            IpAddr::V4(addr) => Self::V4(Ipv4Network::of_address(addr)),
            IpAddr::V6(addr) => Self::V6(Ipv6Network::of_address(addr)),
        }
    }
}

impl From<Ipv4Network> for IpNetwork {
    #[inline]
    fn from(network: Ipv4Network) -> Self {
        Self::V4(network)
    }
}

impl From<Ipv6Network> for IpNetwork {
    #[inline]
    fn from(network: Ipv6Network) -> Self {
        Self::V6(network)
    }
}

impl TryFrom<IpNetwork> for Ipv4Network {
    type Error = WrongFamilyError;

    /// The network, if it is an IPv4 network. No IPv6 network is converted, not even one of
    /// IPv4-mapped addresses.
    #[inline]
    fn try_from(network: IpNetwork) -> Result<Self, WrongFamilyError> {
        match network {
            IpNetwork::V4(network) => Ok(network),
            IpNetwork::V6(_) => Err(WrongFamilyError::new()),
        }
    }
}

impl TryFrom<IpNetwork> for Ipv6Network {
    type Error = WrongFamilyError;

    /// The network, if it is an IPv6 network.
    #[inline]
    fn try_from(network: IpNetwork) -> Result<Self, WrongFamilyError> {
        match network {
            IpNetwork::V6(network) => Ok(network),
            IpNetwork::V4(_) => Err(WrongFamilyError::new()),
        }
    }
}

/// The addresses of a network, in `for addr in &network`.
macro_rules! addresses {
    ($($name:ident: $address:ident, $iterator:ident;)*) => {$(
        impl IntoIterator for &$name {
            type Item = $address;
            type IntoIter = $iterator;

            #[inline]
            fn into_iter(self) -> $iterator {
                self.iter()
            }
        }
    )*};
}

addresses! {
    Ipv4Network: Ipv4Addr, Ipv4NetworkIterator;
    Ipv6Network: Ipv6Addr, Ipv6NetworkIterator;
    IpNetwork: IpAddr, IpNetworkIterator;
}
