//! With the feature `proptest`: which sets are made for property tests.

#![cfg(feature = "proptest")]

use fosibegan::{AddressSet, IpNetwork, Ipv4Network, Ipv6Network};
use proptest::arbitrary::{Arbitrary, any, any_with};
use proptest::collection::SizeRange;
use proptest::strategy::{Strategy as _, ValueTree as _};
use proptest::test_runner::TestRunner;
use std::collections::HashSet;
use std::fmt::Debug;
use std::hash::Hash;

/// Among a thousand sets there are empty ones, large ones, and hardly two that are alike.
fn assert_many<S: Arbitrary + Eq + Hash + Debug>(is_empty: fn(&S) -> bool, len: fn(&S) -> usize) {
    let mut runner = TestRunner::deterministic();
    let sets: HashSet<S> = (0..1000)
        .map(|_| any::<S>().new_tree(&mut runner).unwrap().current())
        .collect();
    assert!(
        sets.iter().any(is_empty) && sets.len() > 500,
        "{} sets",
        sets.len()
    );
    assert!(sets.iter().any(|set| len(set) > 20));
}

#[test]
fn many_sets_are_made() {
    assert_many::<AddressSet<Ipv4Network>>(|set| set.is_empty(), |set| set.len());
    assert_many::<AddressSet<Ipv6Network>>(|set| set.is_empty(), |set| set.len());
    assert_many::<AddressSet<IpNetwork>>(|set| set.is_empty(), |set| set.len());
}

#[test]
fn sets_have_no_more_networks_than_asked_and_become_smaller() {
    let mut runner = TestRunner::deterministic();
    let sets = any_with::<AddressSet>((SizeRange::from(1..=3), ()));
    for _ in 0..200 {
        let mut tree = sets.new_tree(&mut runner).unwrap();
        assert!(
            (1..=3).contains(&tree.current().len()),
            "{:?}",
            tree.current()
        );
        while tree.simplify() {}
        assert_eq!(tree.current().len(), 1);
    }
}
