//! Every public item of the crate `ipnetwork` 0.21.1, under its name and signature. It only has to
//! compile.

use ipnetwork::{
    ip_mask_to_prefix, ipv4_mask_to_prefix, ipv6_mask_to_prefix, IpNetwork, IpNetworkError,
    IpNetworkIterator, Ipv4Network, Ipv4NetworkIterator, Ipv6Network, Ipv6NetworkIterator,
    NetworkSize, NetworkSizeError,
};
use std::error::Error;
use std::fmt::{Debug, Display};
use std::hash::Hash;
use std::net::{AddrParseError, IpAddr, Ipv4Addr, Ipv6Addr};
use std::str::FromStr;

type Made<T> = Result<T, IpNetworkError>;

// Constants, and these as patterns.
const V4: Ipv4Network = match Ipv4Network::new_checked(Ipv4Addr::LOCALHOST, 8) {
    Some(network) => network,
    None => panic!("8 is a prefix length of IPv4"),
};
const V6: Ipv6Network = match Ipv6Network::new_checked(Ipv6Addr::LOCALHOST, 64) {
    Some(network) => network,
    None => panic!("64 is a prefix length of IPv6"),
};
const MADE_V4: Made<Ipv4Network> = Ipv4Network::new(Ipv4Addr::LOCALHOST, 8);
const MADE_V6: Made<Ipv6Network> = Ipv6Network::new(Ipv6Addr::LOCALHOST, 64);
const MADE: Made<IpNetwork> = IpNetwork::new(IpAddr::V4(Ipv4Addr::LOCALHOST), 8);
const EITHER: [IpNetwork; 2] = [IpNetwork::V4(V4), IpNetwork::V6(V6)];

fn constants() -> [bool; 3] {
    [
        MADE_V4.is_ok() && MADE_V6.is_ok() && MADE.is_ok(),
        matches!(Ipv4Network::from(Ipv4Addr::LOCALHOST), V4),
        matches!(EITHER, [IpNetwork::V4(V4), IpNetwork::V6(V6)]),
    ]
}

/// What every network is.
fn network<T, Address, Members>()
where
    T: Copy + Debug + Display + Eq + Ord + Hash + Send + Sync + Unpin + 'static,
    T: FromStr<Err = IpNetworkError> + From<Address>,
    T: for<'a> TryFrom<&'a str, Error = IpNetworkError>,
    for<'a> &'a T: IntoIterator<Item = Address, IntoIter = Members>,
    Members: Iterator<Item = Address> + Clone + Debug + Send + Sync + 'static,
{
}

/// What every error is.
fn error<T: Error + Clone + Debug + Display + Eq + Send + Sync + 'static>() {}

fn size<T>()
where
    T: Copy + Debug + Display + Eq + Ord + Hash + Send + Sync + 'static,
    T: From<u32> + From<u128> + TryInto<u32, Error = NetworkSizeError> + Into<u128>,
{
}

fn traits() {
    network::<Ipv4Network, Ipv4Addr, Ipv4NetworkIterator>();
    network::<Ipv6Network, Ipv6Addr, Ipv6NetworkIterator>();
    network::<IpNetwork, IpAddr, IpNetworkIterator>();
    size::<NetworkSize>();
    error::<IpNetworkError>();
    error::<NetworkSizeError>();
    let _: fn(Ipv4Network) -> IpNetwork = IpNetwork::from;
    let _: fn(Ipv6Network) -> IpNetwork = IpNetwork::from;
    let _: fn(AddrParseError) -> IpNetworkError = IpNetworkError::from;
    let _: fn(NetworkSize) -> u128 = u128::from;
    let _: fn(NetworkSize) -> Result<u32, NetworkSizeError> = u32::try_from;
}

/// By value.
fn calls_v4() {
    let _: fn(Ipv4Addr, u8) -> Made<Ipv4Network> = Ipv4Network::new;
    let _: fn(Ipv4Addr, u8) -> Option<Ipv4Network> = Ipv4Network::new_checked;
    let _: fn(Ipv4Addr, Ipv4Addr) -> Made<Ipv4Network> = Ipv4Network::with_netmask;
    let _: fn(Ipv4Network) -> Ipv4NetworkIterator = Ipv4Network::iter;
    let _: fn(Ipv4Network) -> Ipv4Addr = Ipv4Network::ip;
    let _: fn(Ipv4Network) -> u8 = Ipv4Network::prefix;
    let _: fn(Ipv4Network, Ipv4Network) -> bool = Ipv4Network::is_subnet_of;
    let _: fn(Ipv4Network, Ipv4Network) -> bool = Ipv4Network::is_supernet_of;
    let _: fn(Ipv4Network, Ipv4Network) -> bool = Ipv4Network::overlaps;
    let _: fn(&Ipv4Network) -> Ipv4Addr = Ipv4Network::mask;
    let _: fn(&Ipv4Network) -> Ipv4Addr = Ipv4Network::network;
    let _: fn(&Ipv4Network) -> Ipv4Addr = Ipv4Network::broadcast;
    let _: fn(&Ipv4Network, Ipv4Addr) -> bool = Ipv4Network::contains;
    let _: fn(Ipv4Network) -> u32 = Ipv4Network::size;
    let _: fn(Ipv4Network, u32) -> Option<Ipv4Addr> = Ipv4Network::nth;
    let _: fn(Ipv4Addr) -> Made<u8> = ipv4_mask_to_prefix;
}

/// By reference, but for the questions about two networks and the member of a number.
fn calls_v6() {
    let _: fn(Ipv6Addr, u8) -> Made<Ipv6Network> = Ipv6Network::new;
    let _: fn(Ipv6Addr, u8) -> Option<Ipv6Network> = Ipv6Network::new_checked;
    let _: fn(Ipv6Addr, Ipv6Addr) -> Made<Ipv6Network> = Ipv6Network::with_netmask;
    let _: fn(&Ipv6Network) -> Ipv6NetworkIterator = Ipv6Network::iter;
    let _: fn(&Ipv6Network) -> Ipv6Addr = Ipv6Network::ip;
    let _: fn(&Ipv6Network) -> u8 = Ipv6Network::prefix;
    let _: fn(Ipv6Network, Ipv6Network) -> bool = Ipv6Network::is_subnet_of;
    let _: fn(Ipv6Network, Ipv6Network) -> bool = Ipv6Network::is_supernet_of;
    let _: fn(Ipv6Network, Ipv6Network) -> bool = Ipv6Network::overlaps;
    let _: fn(&Ipv6Network) -> Ipv6Addr = Ipv6Network::mask;
    let _: fn(&Ipv6Network) -> Ipv6Addr = Ipv6Network::network;
    let _: fn(&Ipv6Network) -> Ipv6Addr = Ipv6Network::broadcast;
    let _: fn(&Ipv6Network, Ipv6Addr) -> bool = Ipv6Network::contains;
    let _: fn(&Ipv6Network) -> u128 = Ipv6Network::size;
    let _: fn(Ipv6Network, u128) -> Option<Ipv6Addr> = Ipv6Network::nth;
    let _: fn(Ipv6Addr) -> Made<u8> = ipv6_mask_to_prefix;
}

fn calls_of_either() {
    let _: fn(Ipv4Network) -> IpNetwork = IpNetwork::V4;
    let _: fn(Ipv6Network) -> IpNetwork = IpNetwork::V6;
    let _: fn(IpAddr, u8) -> Made<IpNetwork> = IpNetwork::new;
    let _: fn(IpAddr, IpAddr) -> Made<IpNetwork> = IpNetwork::with_netmask;
    let _: fn(&IpNetwork) -> IpAddr = IpNetwork::ip;
    let _: fn(&IpNetwork) -> u8 = IpNetwork::prefix;
    let _: fn(&IpNetwork) -> IpAddr = IpNetwork::network;
    let _: fn(&IpNetwork) -> IpAddr = IpNetwork::broadcast;
    let _: fn(&IpNetwork) -> IpAddr = IpNetwork::mask;
    let _: fn(&IpNetwork) -> bool = IpNetwork::is_ipv4;
    let _: fn(&IpNetwork) -> bool = IpNetwork::is_ipv6;
    let _: fn(&IpNetwork, IpAddr) -> bool = IpNetwork::contains;
    let _: fn(&IpNetwork) -> NetworkSize = IpNetwork::size;
    let _: fn(&IpNetwork) -> IpNetworkIterator = IpNetwork::iter;
    let _: fn(IpAddr) -> Made<u8> = ip_mask_to_prefix;
    let _: fn(u32) -> NetworkSize = NetworkSize::V4;
    let _: fn(u128) -> NetworkSize = NetworkSize::V6;
}

fn errors() -> [IpNetworkError; 4] {
    [
        IpNetworkError::InvalidAddr(String::new()),
        IpNetworkError::InvalidPrefix,
        IpNetworkError::InvalidCidrFormat(String::new()),
        IpNetworkError::NetworkSizeError(NetworkSizeError::NetworkIsTooLarge),
    ]
}

fn main() {
    traits();
    calls_v4();
    calls_v6();
    calls_of_either();
    println!("{:?} {:?}", constants(), errors());
}
