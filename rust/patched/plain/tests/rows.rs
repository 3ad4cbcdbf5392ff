//! Rows with known answers: what random networks do not reach.

use ipnetwork::{
    ip_mask_to_prefix, IpNetwork, IpNetworkError, Ipv4Network, Ipv6Network, NetworkSize,
    NetworkSizeError,
};
use std::collections::HashSet;
use std::error::Error;
use std::net::{IpAddr, Ipv4Addr, Ipv6Addr};

fn v4(text: &str) -> Ipv4Network {
    text.parse().unwrap()
}

fn v6(text: &str) -> Ipv6Network {
    text.parse().unwrap()
}

fn either(text: &str) -> IpNetwork {
    text.parse().unwrap()
}

fn ip(text: &str) -> IpAddr {
    text.parse().unwrap()
}

#[test]
#[allow(deprecated)]
fn errors() {
    let format = "10.1.1.1/24/".parse::<Ipv4Network>().unwrap_err();
    let size = IpNetworkError::NetworkSizeError(NetworkSizeError::NetworkIsTooLarge);
    let rows = [
        (
            format.clone(),
            "invalid cidr format: CIDR must contain a single '/': 10.1.1.1/24/",
            "cidr is invalid",
        ),
        (
            "0/39".parse::<Ipv4Network>().unwrap_err(),
            "invalid address: invalid IPv4 address syntax",
            "address is invalid",
        ),
        (
            "fe80::1%eth0/64".parse::<Ipv6Network>().unwrap_err(),
            "invalid address: invalid IPv6 address syntax",
            "address is invalid",
        ),
        (
            "10.0.0.0/33".parse::<IpNetwork>().unwrap_err(),
            "invalid address: 10.0.0.0/33",
            "address is invalid",
        ),
        (
            "10".parse::<IpAddr>().unwrap_err().into(),
            "invalid address: invalid IP address syntax",
            "address is invalid",
        ),
        (
            "::1/129".parse::<Ipv6Network>().unwrap_err(),
            "invalid prefix",
            "prefix is invalid",
        ),
        (
            size,
            "network size error: Network is too large to fit into an unsigned 32-bit integer!",
            "network size error",
        ),
    ];
    for (error, text, description) in rows {
        assert_eq!(error.to_string(), text);
        assert_eq!(error.description(), description);
        assert!(error.source().is_none());
    }
    assert_ne!(format, IpNetworkError::InvalidPrefix);
}

#[test]
fn past_the_width() {
    for prefix in 0..=255 {
        let four = Ipv4Network::new(Ipv4Addr::LOCALHOST, prefix);
        assert_eq!(four.is_ok(), prefix <= 32);
        assert_eq!(
            four.is_ok(),
            Ipv4Network::new_checked(Ipv4Addr::LOCALHOST, prefix).is_some()
        );
        let six = Ipv6Network::new(Ipv6Addr::LOCALHOST, prefix);
        assert_eq!(six.is_ok(), prefix <= 128);
        assert_eq!(
            six.is_ok(),
            Ipv6Network::new_checked(Ipv6Addr::LOCALHOST, prefix).is_some()
        );
        let either = IpNetwork::new(ip("127.0.0.1"), prefix);
        assert_eq!(either, four.map(IpNetwork::V4));
        let either = IpNetwork::new(ip("::1"), prefix);
        assert_eq!(either, six.map(IpNetwork::V6));
    }
}

#[test]
fn families() {
    assert!(either("255.255.255.255/32") < either("::/0"));
    assert!(!either("::/0").contains(ip("127.0.0.1")));
    assert!(!either("0.0.0.0/0").contains(ip("::ffff:127.0.0.1")));
    assert_eq!(IpNetwork::from(ip("192.0.2.9")), either("192.0.2.9/32"));
    assert_eq!(IpNetwork::from(ip("2001:db8::1")), either("2001:db8::1"));
    assert_eq!(Ipv4Network::from(Ipv4Addr::LOCALHOST), v4("127.0.0.1"));
    assert_eq!(Ipv6Network::from(Ipv6Addr::LOCALHOST), v6("::1/128"));
    assert_eq!(format!("{:?}", either("10.1.9.32/16")), "10.1.9.32/16");
}

#[test]
fn masks_of_the_other_family() {
    let made = |address, mask| IpNetwork::with_netmask(ip(address), ip(mask));
    assert_eq!(made("10.0.0.1", "ffff:ff00::"), Ok(either("10.0.0.1/24")));
    assert_eq!(
        made("10.0.0.1", "ffff:ffff:8000::"),
        Err(IpNetworkError::InvalidPrefix)
    );
    assert_eq!(made("::1", "255.255.0.0"), Ok(either("::1/16")));
    for no_mask in ["255.0.255.0", "0:0:ffff:ffff::", "ffff:ff00:0:1::"] {
        assert_eq!(
            ip_mask_to_prefix(ip(no_mask)),
            Err(IpNetworkError::InvalidPrefix)
        );
    }
}

#[test]
fn host_bits_change_nothing() {
    assert!(v4("10.0.0.0/30").is_subnet_of(v4("10.0.0.5/24")));
    assert!(!v4("10.255.255.255/8").is_subnet_of(v4("10.255.255.0/24")));
    assert!(v4("10.0.0.1/24").is_supernet_of(v4("10.0.0.0/24")));
    assert_ne!(v4("10.0.0.1/24"), v4("10.0.0.0/24"));
}

#[test]
fn members_at_the_ends() {
    let all = v4("0.0.0.0/0");
    assert_eq!(all.size(), 4_294_967_295);
    assert_eq!(
        all.nth(4_294_967_294),
        Some(Ipv4Addr::new(255, 255, 255, 254))
    );
    assert_eq!(all.nth(4_294_967_295), None);
    let mut members = all.iter();
    assert_eq!(
        members.nth(4_294_967_294).map(u32::from),
        Some(u32::MAX - 1)
    );
    assert_eq!(members.clone().next(), Some(Ipv4Addr::BROADCAST));
    assert_eq!(members.nth(1), None);
    assert_eq!(all.iter().next_back(), Some(Ipv4Addr::BROADCAST));
    let mut end = v4("255.255.255.0/24").iter();
    assert_eq!(end.by_ref().last(), Some(Ipv4Addr::BROADCAST));
    assert_eq!(
        (end.next(), end.next(), end.size_hint()),
        (None, None, (0, Some(0)))
    );
    let all = v6("2001:db8::/0");
    assert_eq!(all.size(), u128::MAX);
    assert_eq!(all.nth(u128::MAX), None);
    assert_eq!(all.nth(u128::MAX - 1), Some(Ipv6Addr::from(u128::MAX - 1)));
    assert_eq!(all.iter().next_back(), Some(Ipv6Addr::from(u128::MAX)));
    assert!(all.iter().take(3).map(u128::from).eq(0..3));
    let wide = v6("ff01::0/32");
    assert_eq!(wide.size(), 79_228_162_514_264_337_593_543_950_336);
    assert_eq!(wide.nth(65538), Some("ff01::1:2".parse().unwrap()));
    let mut copied = v4("10.0.0.0/31").iter();
    let (before, _) = (copied.clone(), copied.next());
    let shown = "Ipv4NetworkIterator { next: Some(167772161), end: 167772161 }";
    assert_eq!(format!("{copied:?}"), shown);
    assert_eq!((before.count(), copied.count()), (2, 1));
    let shown = "IpNetworkIterator { inner: V6(Ipv6NetworkIterator { next: Some(0), end: 1 }) }";
    assert_eq!(format!("{:?}", either("::/127").iter()), shown);
    assert_eq!(either("::/64").into_iter().size_hint().1, None);
}

#[test]
fn sizes() {
    let (four, six) = (NetworkSize::from(100_u32), NetworkSize::from(100_u128));
    assert_eq!((four, four.cmp(&six)), (six, std::cmp::Ordering::Equal));
    assert!(NetworkSize::V6(99) < four && four < NetworkSize::V6(101));
    assert_eq!(HashSet::from([four, six, NetworkSize::V4(1)]).len(), 2);
    assert_eq!(u32::try_from(four), Ok(100));
    assert_eq!(u32::try_from(six), Err(NetworkSizeError::NetworkIsTooLarge));
    assert_eq!((u128::from(four), u128::from(six)), (100, 100));
    assert_eq!(
        format!("{four} {six:>5} {}", NetworkSize::V6(u128::MAX)),
        "100 100 340282366920938463463374607431768211455"
    );
    assert_eq!(either("10.0.0.0/8").size(), NetworkSize::V4(1 << 24));
}

/// A library that a program depends on has the crate of the patch too: their networks are of one
/// type.
#[test]
fn through_another_crate() {
    let list: Vec<IpNetwork> = reader::read("0.0.0.0/0\n10.0.0.0/8\n10.1.0.0/16\n").unwrap();
    assert_eq!(list[1], either("10.0.0.0/8"));
    for (address, found) in [
        ("10.1.2.3", Some("10.1.0.0/16")),
        ("11.0.0.0", Some("0.0.0.0/0")),
        ("::1", None),
    ] {
        let found = found.map(either);
        assert_eq!(reader::find(&list, ip(address)).copied(), found);
    }
    assert_eq!(
        reader::read("10/8"),
        Err(IpNetworkError::InvalidAddr("10/8".to_string()))
    );
}
