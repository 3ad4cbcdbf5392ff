//! What a set is made of.

use crate::{AddressSetBuilder, IpNetwork, Ipv4Network, Ipv6Network, Network};
use core::net::{IpAddr, Ipv4Addr, Ipv6Addr};
use core::ops::RangeInclusive;

/// What an [`AddressSet<N>`](crate::AddressSet) can be collected from and extended by: networks of
/// the type `N`, addresses, and ranges of addresses with both ends included. Other crates cannot
/// implement it.
///
/// A set of both families, `AddressSet<IpNetwork>`, also takes those of one family. Each may be
/// owned or borrowed.
///
/// A range that ends before it begins has no addresses, as in `std`. A range that begins in one
/// address family and ends in the other causes a panic: it would contain nearly everything.
///
/// # Examples
///
/// ```
/// use fosibegan::{Addresses, AddressSet, IpNetwork, Ipv4Network};
/// use std::net::Ipv4Addr;
///
/// fn set_of<T: Addresses<IpNetwork>>(items: Vec<T>) -> AddressSet {
///     items.into_iter().collect()
/// }
///
/// let networks: Vec<Ipv4Network> = vec!["192.0.2.0/30".parse()?];
/// let addresses = vec![Ipv4Addr::new(192, 0, 2, 0), Ipv4Addr::new(192, 0, 2, 1)];
/// let ranges = vec![addresses[0]..=Ipv4Addr::new(192, 0, 2, 3)];
/// assert_eq!(set_of(networks), set_of(ranges));
/// assert_eq!(set_of(addresses).address_count(), 2);
/// # Ok::<(), Box<dyn std::error::Error>>(())
/// ```
pub trait Addresses<N: Network>: Sealed<N> {}

/// How a value is added to a set.
pub trait Sealed<N: Network> {
    #[doc(hidden)]
    fn add_to(self, builder: &mut AddressSetBuilder<N>);
}

/// The types that a set of networks has the addresses of, and how a value of each is added.
macro_rules! addresses {
    ($($network:ty: $($item:ty => |$value:ident, $builder:ident| $add:expr),*;)*) => {$($(
        impl Addresses<$network> for $item {}
        impl Sealed<$network> for $item {
            #[inline]
            fn add_to(self, $builder: &mut AddressSetBuilder<$network>) {
                let $value = self;
                $add;
            }
        }

        impl Addresses<$network> for &$item {}
        impl Sealed<$network> for &$item {
            #[inline]
            fn add_to(self, builder: &mut AddressSetBuilder<$network>) {
                self.clone().add_to(builder);
            }
        }
    )*)*};
}

addresses! {
    Ipv4Network:
        Ipv4Network => |network, builder| builder.insert(network),
        Ipv4Addr => |addr, builder| builder.insert(addr.into()),
        RangeInclusive<Ipv4Addr> => |range, builder| builder.insert_range(range);
    Ipv6Network:
        Ipv6Network => |network, builder| builder.insert(network),
        Ipv6Addr => |addr, builder| builder.insert(addr.into()),
        RangeInclusive<Ipv6Addr> => |range, builder| builder.insert_range(range);
    IpNetwork:
        IpNetwork => |network, builder| builder.insert(network),
        Ipv4Network => |network, builder| builder.insert(IpNetwork::V4(network)),
        Ipv6Network => |network, builder| builder.insert(IpNetwork::V6(network)),
        IpAddr => |addr, builder| builder.insert(addr.into()),
        Ipv4Addr => |addr, builder| builder.insert(IpAddr::V4(addr).into()),
        Ipv6Addr => |addr, builder| builder.insert(IpAddr::V6(addr).into()),
        RangeInclusive<IpAddr> => |range, builder| builder.insert_range(range),
        RangeInclusive<Ipv4Addr> => |range, builder| if !range.is_empty() {
            builder.insert_range(IpAddr::V4(*range.start())..=IpAddr::V4(*range.end()));
        },
        RangeInclusive<Ipv6Addr> => |range, builder| if !range.is_empty() {
            builder.insert_range(IpAddr::V6(*range.start())..=IpAddr::V6(*range.end()));
        };
}
