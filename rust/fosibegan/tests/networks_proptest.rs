//! With the feature `proptest`: which networks are made for property tests.

#![cfg(feature = "proptest")]

use core::net::{IpAddr, Ipv6Addr};
use fosibegan::{IpNetwork, Ipv4Network, Ipv6Network};
use proptest::arbitrary::any;
use proptest::strategy::{Strategy as _, ValueTree as _};
use proptest::test_runner::TestRunner;
use std::collections::BTreeSet;

const MADE: usize = 20_000;

fn made<N: proptest::arbitrary::Arbitrary>() -> Vec<N> {
    let mut runner = TestRunner::deterministic();
    (0..MADE)
        .map(|_| any::<N>().new_tree(&mut runner).unwrap().current())
        .collect()
}

/// Of how many networks this is true, in percent.
fn percent<N>(networks: &[N], question: impl Fn(&N) -> bool) -> usize {
    networks.iter().filter(|network| question(network)).count() * 100 / networks.len()
}

#[test]
fn networks() {
    let v4 = made::<Ipv4Network>();
    let lengths: BTreeSet<u8> = v4.iter().map(|network| network.prefix()).collect();
    assert!(lengths.into_iter().eq(0..=32));
    assert!(percent(&v4, |network| network.ip().to_bits() == 0) >= 10);
    assert!(percent(&v4, |network| network.ip().to_bits() == u32::MAX) >= 10);
    assert!(percent(&v4, |network| network.ip() == network.network()) >= 20);
    assert!(percent(&v4, |network| network.ip() == network.broadcast()) >= 20);
    assert!(percent(&v4, |network| *network != network.block()) >= 40);

    let v6 = made::<Ipv6Network>();
    let lengths: BTreeSet<u8> = v6.iter().map(|network| network.prefix()).collect();
    assert!(lengths.into_iter().eq(0..=128));
    assert!(percent(&v6, |network| network.ip() == Ipv6Addr::UNSPECIFIED) >= 10);
    assert!(percent(&v6, |network| network.ip().to_bits() == u128::MAX) >= 10);
    assert!(percent(&v6, |network| network.ip() == network.network()) >= 20);
    assert!(percent(&v6, |network| network.ip() == network.broadcast()) >= 20);

    let either = made::<IpNetwork>();
    assert!((40..60).contains(&percent(&either, IpNetwork::is_ipv4)));
}

/// A network that fails a test becomes a simpler one that fails it too.
#[test]
fn simpler_networks() {
    let mut runner = TestRunner::deterministic();
    for _ in 0..200 {
        let mut tree = any::<IpNetwork>().new_tree(&mut runner).unwrap();
        let fails = |network: IpNetwork| network.prefix() >= 9;
        if !fails(tree.current()) {
            continue;
        }
        while tree.simplify() {
            while !fails(tree.current()) && tree.complicate() {}
        }
        let simplest = tree.current();
        assert_eq!(simplest.prefix(), 9);
        assert!(matches!(simplest.ip(), IpAddr::V4(_)) || simplest.is_ipv6());
    }
}
