//! Code for any of the three types of networks, by the trait alone.

use fosibegan::{IpNetwork, Ipv4Network, Ipv6Network, Network};
use std::fmt::Debug;
use std::net::IpAddr;
use std::str::FromStr;

fn read<T: FromStr<Err: Debug>>(text: &str) -> T {
    text.parse().unwrap()
}

/// A network with host bits that is neither the first nor the last of its prefix length: its
/// address, prefix length, first and last address, block, and the addresses next to it.
type Row = (
    &'static str,
    &'static str,
    u8,
    &'static str,
    &'static str,
    &'static str,
    [&'static str; 2],
);

const V4: Row = (
    "10.1.9.32/15",
    "10.1.9.32",
    15,
    "10.0.0.0",
    "10.1.255.255",
    "10.0.0.0/15",
    ["9.255.255.255", "10.2.0.0"],
);

const V6: Row = (
    "2001:db8:1::1/31",
    "2001:db8:1::1",
    31,
    "2001:db8::",
    "2001:db9:ffff:ffff:ffff:ffff:ffff:ffff",
    "2001:db8::/31",
    ["2001:db7:ffff:ffff:ffff:ffff:ffff:ffff", "2001:dba::"],
);

fn answers_as<N: Network<Addr: FromStr<Err: Debug>>>(row: Row) {
    let (text, ip, prefix, first, last, block, neighbours) = row;
    let network: N = read(text);
    assert_eq!(network.to_string(), text);
    assert_eq!(network.ip(), read(ip));
    assert_eq!(network.prefix(), prefix);
    assert_eq!(network.network(), read(first));
    assert_eq!(network.broadcast(), read(last));
    assert_eq!(network.block(), read(block));

    assert!(network.contains(read(first)) && network.contains(read(last)));
    assert!(neighbours.iter().all(|addr| !network.contains(read(addr))));

    let inside = N::from(read(last));
    let outside = N::from(read(neighbours[1]));
    assert!(inside.is_subnet_of(network) && !network.is_subnet_of(inside));
    assert!(!outside.is_subnet_of(network) && network.is_subnet_of(network.block()));
    assert!(inside.overlaps(network) && network.overlaps(inside));
    assert!(!outside.overlaps(network) && !network.overlaps(outside));

    let either: IpNetwork = network.into();
    let addr: IpAddr = network.ip().into();
    assert_eq!((either, addr), (read(text), read(ip)));
}

#[test]
fn methods_of_the_trait() {
    answers_as::<Ipv4Network>(V4);
    answers_as::<Ipv6Network>(V6);
    answers_as::<IpNetwork>(V4);
    answers_as::<IpNetwork>(V6);

    let network: IpNetwork = read("0.0.0.0/0");
    assert!(!Network::contains(&network, read("::")));
    assert!(!Network::contains(&network, read("::ffff:10.0.0.1")));
    assert!(!Network::overlaps(&network, read("::/0")));
    assert!(!Network::is_subnet_of(&network, read("::/0")));
}
