//! What networks, errors and sizes are as values: converted, compared, hashed and shared.

use crate::common::{either, v4, v6};
use core::error::Error;
use core::fmt::{Debug, Display};
use core::hash::{Hash, Hasher};
use core::net::{IpAddr, Ipv4Addr, Ipv6Addr};
use core::panic::{RefUnwindSafe, UnwindSafe};
use core::str::FromStr;
use fosibegan::{
    Exclude, Hosts, IpNetwork, IpNetworkError, IpNetworkIterator, Ipv4Network, Ipv4NetworkIterator,
    Ipv6Network, Ipv6NetworkIterator, NetworkSize, NetworkSizeError, Subnets, Summarize,
    WrongFamilyError,
};
use std::collections::BTreeSet;
use std::hash::DefaultHasher;

#[test]
fn conversions() {
    let (v4_address, v6_address) = (Ipv4Addr::new(10, 1, 9, 32), Ipv6Addr::LOCALHOST);
    let octets = v6_address.octets();
    let segments = v6_address.segments();

    assert_eq!(Ipv4Network::from(v4_address), v4("10.1.9.32/32"));
    assert_eq!(Ipv4Network::from([10, 1, 9, 32]), v4("10.1.9.32/32"));
    assert_eq!(
        Ipv4Network::try_from((v4_address, 8)),
        Ok(v4("10.1.9.32/8"))
    );
    assert_eq!(
        Ipv4Network::try_from((v4_address, 33)),
        Err(IpNetworkError::InvalidPrefix)
    );

    assert_eq!(Ipv6Network::from(v6_address), v6("::1/128"));
    assert_eq!(Ipv6Network::from(octets), v6("::1/128"));
    assert_eq!(Ipv6Network::from(segments), v6("::1/128"));
    assert_eq!(Ipv6Network::try_from((v6_address, 64)), Ok(v6("::1/64")));
    assert_eq!(
        Ipv6Network::try_from((v6_address, 129)),
        Err(IpNetworkError::InvalidPrefix)
    );

    assert_eq!(
        IpNetwork::from(IpAddr::V4(v4_address)),
        either("10.1.9.32/32")
    );
    assert_eq!(IpNetwork::from(IpAddr::V6(v6_address)), either("::1/128"));
    assert_eq!(IpNetwork::from(v4_address), either("10.1.9.32/32"));
    assert_eq!(IpNetwork::from(v6_address), either("::1/128"));
    assert_eq!(IpNetwork::from([10, 1, 9, 32]), either("10.1.9.32/32"));
    assert_eq!(IpNetwork::from(octets), either("::1/128"));
    assert_eq!(IpNetwork::from(segments), either("::1/128"));
    assert_eq!(IpNetwork::from(v4("10.1.9.32/8")), either("10.1.9.32/8"));
    assert_eq!(IpNetwork::from(v6("::1/64")), either("::1/64"));
    let pair = |address: &str, prefix| IpNetwork::try_from((address.parse().unwrap(), prefix));
    assert_eq!(pair("10.1.9.32", 32), Ok(either("10.1.9.32/32")));
    assert_eq!(pair("10.1.9.32", 33), Err(IpNetworkError::InvalidPrefix));
    assert_eq!(pair("::1", 128), Ok(either("::1/128")));
    assert_eq!(pair("::1", 129), Err(IpNetworkError::InvalidPrefix));

    assert_eq!(
        Ipv4Network::try_from(either("10.1.9.32/8")),
        Ok(v4("10.1.9.32/8"))
    );
    assert_eq!(Ipv6Network::try_from(either("::1/64")), Ok(v6("::1/64")));
    for mapped in [
        "::ffff:10.0.0.0/104",
        "::ffff:10.0.0.0/128",
        "::10.0.0.0/128",
    ] {
        assert!(Ipv4Network::try_from(either(mapped)).is_err());
    }
    assert!(Ipv6Network::try_from(either("10.1.9.32/8")).is_err());
}

/// Networks are in the order of their addresses, then of their prefix lengths.
#[test]
fn order() {
    let rows = [
        "0.0.0.0/0",
        "0.0.0.0/32",
        "0.0.0.1/0",
        "9.255.255.255/32",
        "10.0.0.0/7",
        "10.0.0.0/8",
        "10.0.0.1/0",
        "255.255.255.255/0",
        "255.255.255.255/32",
        "::/0",
        "::/128",
        "::1/0",
        "::ffff:0:0/96",
        "1::/16",
        "2001:db8::/32",
        "2001:db8:0:1::/0",
        "ffff:ffff:ffff:ffff:ffff:ffff:ffff:ffff/0",
    ];
    let networks = rows.map(either);
    assert!(networks.is_sorted_by(|one, next| one < next));
    let reversed: BTreeSet<IpNetwork> = networks.into_iter().rev().collect();
    assert!(reversed.into_iter().eq(networks));
    let hashes: BTreeSet<u64> = networks.iter().map(hash).collect();
    assert_eq!(hashes.len(), networks.len());
    assert_eq!(hash(&either("10.0.0.0/8")), hash(&either("10.0.0.0/8")));
}

fn hash<T: Hash>(value: &T) -> u64 {
    let mut hasher = DefaultHasher::new();
    value.hash(&mut hasher);
    hasher.finish()
}

#[test]
fn errors() {
    let of_address = "x".parse::<Ipv4Addr>().unwrap_err();
    let rows = [
        (
            IpNetworkError::InvalidAddr("x".to_string()),
            "invalid address: x",
        ),
        (IpNetworkError::InvalidPrefix, "invalid prefix"),
        (
            IpNetworkError::InvalidCidrFormat("x".to_string()),
            "invalid cidr format: x",
        ),
        (
            IpNetworkError::NetworkSizeError(NetworkSizeError::NetworkIsTooLarge),
            "network size error: Network is too large to fit into an unsigned 32-bit integer!",
        ),
        (
            IpNetworkError::from(of_address),
            "invalid address: invalid IPv4 address syntax",
        ),
    ];
    for (error, text) in &rows {
        assert_eq!(error.to_string(), *text);
        assert_eq!(error.clone(), *error);
        assert_eq!(hash(&error.clone()), hash(error));
        assert!(error.source().is_none());
    }
    let hashes: BTreeSet<u64> = rows.iter().map(|(error, _)| hash(error)).collect();
    assert_eq!(hashes.len(), rows.len());
    let wrong = Ipv4Network::try_from(either("::/0")).unwrap_err();
    assert_eq!(
        wrong.to_string(),
        "the network is of the other address family"
    );
    let boxed: Box<dyn Error + Send + Sync> = wrong.into();
    assert_eq!(boxed.downcast_ref(), Some(&wrong));
}

#[test]
fn sizes() {
    let rows = [
        (NetworkSize::V4(0), NetworkSize::V6(0), 0),
        (NetworkSize::V4(1), NetworkSize::V6(1), 1),
        (
            NetworkSize::V4(u32::MAX),
            NetworkSize::V6(u32::MAX.into()),
            u32::MAX.into(),
        ),
    ];
    for (v4, v6, number) in rows {
        assert_eq!(v4, v6);
        assert_eq!(hash(&v4), hash(&v6));
        assert_eq!((u128::from(v4), u128::from(v6)), (number, number));
        assert_eq!(u32::try_from(v4).map(u128::from), Ok(number));
        assert_eq!(u32::try_from(v6), Err(NetworkSizeError::NetworkIsTooLarge));
        assert_eq!(v4.to_string(), number.to_string());
        assert!(v4 < NetworkSize::V6(u128::MAX) && NetworkSize::V6(number + 1) > v4);
    }
    assert_eq!(NetworkSize::from(7_u32), NetworkSize::from(7_u128));
}

/// What each value may do: be shared with other threads, moved, and left by a panic.
trait Plain: Clone + Debug + Send + Sync + Unpin + UnwindSafe + RefUnwindSafe + 'static {}
impl<T: Clone + Debug + Send + Sync + Unpin + UnwindSafe + RefUnwindSafe + 'static> Plain for T {}

fn is_plain<T: Plain>() {}
fn is_network<T: Plain + Copy + Ord + Hash + Display + FromStr<Err = IpNetworkError>>() {}
fn is_error<T: Plain + Error + Eq + Hash>() {}

#[test]
fn types() {
    is_network::<Ipv4Network>();
    is_network::<Ipv6Network>();
    is_network::<IpNetwork>();
    is_error::<IpNetworkError>();
    is_error::<NetworkSizeError>();
    is_error::<WrongFamilyError>();
    is_plain::<NetworkSize>();
    is_plain::<(Ipv4NetworkIterator, Ipv6NetworkIterator, IpNetworkIterator)>();
    is_plain::<(Hosts<Ipv4Network>, Hosts<Ipv6Network>, Hosts<IpNetwork>)>();
    is_plain::<(
        Subnets<Ipv4Network>,
        Subnets<Ipv6Network>,
        Subnets<IpNetwork>,
    )>();
    is_plain::<(
        Exclude<Ipv4Network>,
        Exclude<Ipv6Network>,
        Exclude<IpNetwork>,
    )>();
    is_plain::<(
        Summarize<Ipv4Network>,
        Summarize<Ipv6Network>,
        Summarize<IpNetwork>,
    )>();
    assert_eq!(size_of::<Ipv4Network>(), 5);
    assert_eq!(size_of::<Ipv6Network>(), 17);
    assert_eq!(size_of::<IpNetwork>(), 18);
}

/// What programs write with the paths of functions.
#[test]
fn paths_of_functions() {
    let networks = [v4("10.1.9.32/8"), v4("192.0.2.77/26")];
    let first = [Ipv4Addr::new(10, 0, 0, 0), Ipv4Addr::new(192, 0, 2, 64)];
    assert!(networks.iter().map(Ipv4Network::network).eq(first));
    assert!(
        networks
            .iter()
            .map(Ipv4Network::mask)
            .all(|mask| mask.octets()[0] == 255)
    );
    assert!(
        networks
            .iter()
            .map(Ipv4Network::broadcast)
            .all(|last| last.octets()[3] % 2 == 1)
    );
    assert!(networks.into_iter().map(Ipv4Network::prefix).eq([8, 26]));
    assert!(networks.map(Ipv4Network::block).map(|block| block.ip()) == first);
    let is_member: fn(&Ipv4Network, Ipv4Addr) -> bool = Ipv4Network::contains;
    assert!(is_member(&networks[0], Ipv4Addr::new(10, 255, 255, 255)));
    let networks = [v6("2001:db8::1/32")];
    assert!(networks.iter().map(Ipv6Network::prefix).eq([32]));
    assert!(
        networks
            .iter()
            .map(Ipv6Network::network)
            .all(|first| networks[0].contains(first))
    );
    let networks = [either("10.1.9.32/8"), either("2001:db8::1/32")];
    assert!(
        networks
            .iter()
            .map(IpNetwork::network)
            .all(|first| first.is_ipv4() || first.is_ipv6())
    );
}

/// What a constant needs is known at compile time.
#[test]
fn constants() {
    const V4: Ipv4Network = Ipv4Network::new_checked(Ipv4Addr::new(10, 1, 9, 32), 8).unwrap();
    const V6: Ipv6Network = Ipv6Network::new_checked(Ipv6Addr::LOCALHOST, 64).unwrap();
    const EITHER: IpNetwork = IpNetwork::new_checked(IpAddr::V4(V4.ip()), 16).unwrap();
    const _: () = {
        assert!(V4.prefix() == 8 && V6.prefix() == 64 && EITHER.prefix() == 16);
        assert!(V4.network().to_bits() == 10 << 24);
        assert!(V4.broadcast().to_bits() == (11 << 24) - 1);
        assert!(V4.mask().to_bits() == 255 << 24);
        assert!(V4.size() == 1 << 24 && V6.size() == 1 << 64);
        assert!(V4.contains(Ipv4Addr::new(10, 255, 255, 255)));
        assert!(!V6.contains(Ipv6Addr::new(0, 0, 0, 1, 0, 0, 0, 1)));
        assert!(EITHER.contains(IpAddr::V4(Ipv4Addr::new(10, 1, 255, 255))));
        assert!(EITHER.contains_mapped(IpAddr::V4(Ipv4Addr::new(10, 1, 255, 255))));
        assert!(EITHER.is_ipv4() && !EITHER.is_ipv6());
        assert!(V4.nth(1).is_some() && V4.block().is_subnet_of(V4) && V4.is_supernet_of(V4));
        assert!(V4.overlaps(V4) && V4.next().is_some() && V6.previous().is_none());
        assert!(V4.supernet(9).is_none());
    };
    const NEW: Result<Ipv4Network, IpNetworkError> = Ipv4Network::new(Ipv4Addr::LOCALHOST, 33);
    assert_eq!(NEW, Err(IpNetworkError::InvalidPrefix));
}
