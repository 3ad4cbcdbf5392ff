//! With the feature `proptest`: maps as values for property tests.

#![cfg(feature = "proptest")]

use fosibegan::{FrozenMap, IpNetwork, Ipv4Network, PrefixMap};
use proptest::arbitrary::{any, any_with};
use proptest::strategy::{Strategy, ValueTree};
use proptest::test_runner::TestRunner;

#[test]
fn maps_of_some_entries_are_made() {
    let mut runner = TestRunner::deterministic();
    let mut sizes = Vec::new();
    for _ in 0..200 {
        let map = any::<PrefixMap<IpNetwork, u8>>()
            .new_tree(&mut runner)
            .unwrap()
            .current();
        sizes.push(map.len());
    }
    assert!(sizes.iter().any(|size| *size < 20) && sizes.iter().any(|size| *size > 50));
    assert!(sizes.iter().all(|size| *size <= 100));
}

#[test]
fn the_number_of_entries_can_be_said() {
    let mut runner = TestRunner::deterministic();
    let strategy = any_with::<FrozenMap<Ipv4Network, u8>>(((3..=3).into(), (), ()));
    for _ in 0..50 {
        let map = strategy.new_tree(&mut runner).unwrap().current();
        assert!((1..=3).contains(&map.len()));
    }
}
