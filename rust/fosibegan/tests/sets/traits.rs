//! The traits of `std` that sets have.

use crate::space::Space;
use fosibegan::address_set::{
    Complement, Difference, FreeIn, Intersection, IntoNetworks, Networks, Ranges,
    SymmetricDifference, Union,
};
use fosibegan::{AddressSet, AddressSetBuilder, FrozenSet, IpNetwork, Ipv4Network, Ipv6Network};
use std::collections::hash_map::DefaultHasher;
use std::hash::{Hash, Hasher};

/// Each form of `|`, `&`, `-` and `^` on these two sets has these results.
pub fn operators<N: Space>(
    set: &AddressSet<N>,
    other: &AddressSet<N>,
    results: [AddressSet<N>; 4],
) {
    macro_rules! forms {
        ($operator:tt $assign:tt, $result:expr) => {
            let result = $result;
            assert_eq!(set $operator other, *result);
            assert_eq!(set.clone() $operator other, *result);
            assert_eq!(set $operator other.clone(), *result);
            assert_eq!(set.clone() $operator other.clone(), *result);
            let (mut by_reference, mut by_value) = (set.clone(), set.clone());
            by_reference $assign other;
            by_value $assign other.clone();
            assert_eq!(by_reference, *result);
            assert_eq!(by_value, *result);
        };
    }
    forms!(| |=, &results[0]);
    forms!(& &=, &results[1]);
    forms!(- -=, &results[2]);
    forms!(^ ^=, &results[3]);
}

fn set(texts: &[&str]) -> AddressSet {
    texts
        .iter()
        .map(|text| text.parse::<IpNetwork>().unwrap())
        .collect()
}

fn hash(set: &impl Hash) -> u64 {
    let mut hasher = DefaultHasher::new();
    set.hash(&mut hasher);
    hasher.finish()
}

#[test]
fn debug_is_a_set_of_networks() {
    let set = set(&["2001:db8::/32", "10.0.0.0/9", "10.128.0.0/9"]);
    let networks: Vec<IpNetwork> = vec![
        "10.0.0.0/8".parse().unwrap(),
        "2001:db8::/32".parse().unwrap(),
    ];
    let inside = format!("{:?}, {:?}", networks[0], networks[1]);
    assert_eq!(format!("{set:?}"), format!("{{{inside}}}"));
    assert_eq!(format!("{:?}", AddressSet::new()), "{}");
    for text in [
        format!("{:?}", set.networks()),
        format!("{:?}", set.clone().into_iter()),
        format!("{:?}", set.union(&set)),
        format!("{:?}", set.intersection(&set)),
        format!("{:?}", set.difference(&AddressSet::new())),
        format!("{:?}", set.symmetric_difference(&AddressSet::new())),
        format!("{:?}", (!&set).complement()),
    ] {
        assert_eq!(text, format!("[{inside}]"));
    }
    let free = set.free_in("10.0.0.0/7".parse().unwrap());
    assert_eq!(
        format!("{free:?}"),
        format!("[{:?}]", "11.0.0.0/8".parse::<IpNetwork>().unwrap())
    );
    assert_eq!(
        format!("{:?}", set.ranges()),
        "[10.0.0.0..=10.255.255.255, 2001:db8::..=2001:db8:ffff:ffff:ffff:ffff:ffff:ffff]"
    );
}

#[test]
fn equal_sets_are_equal_and_have_one_hash() {
    let joined = set(&["10.0.0.0/8", "::/0"]);
    let halves = set(&[
        "10.128.0.9/9",
        "::/1",
        "10.0.0.0/9",
        "8000::/1",
        "10.1.0.0/16",
    ]);
    assert_eq!(joined, halves);
    assert_eq!(hash(&joined), hash(&halves));
    assert_eq!(joined.cmp(&halves), std::cmp::Ordering::Equal);
    assert_eq!(joined, joined.clone());
    for other in [
        &[][..],
        &["10.0.0.0/8"],
        &["::/0"],
        &["10.0.0.0/9", "::/0"],
        &["10.0.0.0/8", "::/1"],
    ] {
        assert_ne!(joined, set(other));
        assert_ne!(hash(&joined), hash(&set(other)));
    }
}

#[test]
fn the_order_is_that_of_the_networks() {
    // As lists of networks, in ascending order.
    let sets = [
        &[][..],
        &["10.0.0.0/8"],
        &["10.0.0.0/8", "11.0.0.0/16"],
        &["10.0.0.0/8", "::/0"],
        &["10.0.0.0/9"],
        &["11.0.0.0/8"],
        &["::/0"],
        &["::/128"],
        &["::1/128"],
    ];
    let sets: Vec<AddressSet> = sets.iter().map(|texts| set(texts)).collect();
    assert!(sets.is_sorted());
    let lists: Vec<Vec<IpNetwork>> = sets.iter().map(|set| set.networks().collect()).collect();
    for (one, list) in sets.iter().zip(&lists) {
        for (other, others) in sets.iter().zip(&lists) {
            assert_eq!(one.cmp(other), list.cmp(others));
            assert_eq!(one.partial_cmp(other), Some(list.cmp(others)));
            let (one, other) = (one.freeze(), other.freeze());
            assert_eq!(one.cmp(&other), list.cmp(others));
            assert_eq!(one.partial_cmp(&other), Some(list.cmp(others)));
            assert_eq!(
                (one == other, hash(&one)),
                (list == others, hash(one.as_set()))
            );
        }
    }
}

#[test]
fn what_is_empty() {
    let set = AddressSet::new();
    assert!(
        set.is_empty() && set.freeze().is_empty() && FrozenSet::<Ipv6Network>::default().is_empty()
    );
    assert_eq!((set.len(), set.address_count()), (0, 0.into()));
    assert!(set.networks().next().is_none() && set.ranges().next().is_none());
    assert!(!set.contains("0.0.0.0".parse().unwrap()) && !set.contains("::".parse().unwrap()));
    assert!(!set.contains_mapped("::ffff:0:0".parse().unwrap()));
    assert!(set.is_subset(&set) && set.is_disjoint(&set));
    let all = !&set;
    assert!(all.networks().eq([
        "0.0.0.0/0".parse::<IpNetwork>().unwrap(),
        "::/0".parse().unwrap()
    ]));
    assert!(
        (!&AddressSet::<Ipv4Network>::default())
            .networks()
            .eq(["0.0.0.0/0".parse().unwrap()])
    );
    assert!(
        (!&AddressSet::<Ipv6Network>::default())
            .networks()
            .eq(["::/0".parse().unwrap()])
    );
    assert!(!!all.clone() == all && (!all).is_empty());
    assert!(Networks::<IpNetwork>::default().next().is_none());
}

/// Of prefix length 0 there is one network in each family, and it is free only if nothing is used.
#[test]
fn a_whole_family_is_free_if_nothing_is_used() {
    for (all, used) in [("0.0.0.0/0", "255.255.255.255"), ("::/0", "::")] {
        let (all, used): (IpNetwork, IpNetwork) = (all.parse().unwrap(), used.parse().unwrap());
        let mut set = AddressSet::new();
        assert_eq!(set.first_free(all, 0), Some(all));
        assert_eq!(set.largest_free(all), Some(all));
        assert!(set.free_in(all).eq([all]));
        assert_eq!(set.first_free(used, 0), None);
        set.insert(used);
        assert_eq!(set.first_free(all, 0), None);
        assert_eq!(set.largest_free(all).map(|free| free.prefix()), Some(1));
        assert_eq!((!&set).first_free(all, used.prefix()), Some(used));
        assert_eq!(set.first_free(used, used.prefix()), None);
    }
}

#[test]
fn every_thread_may_have_them() {
    fn may<T: Send + Sync + Unpin + Clone + std::fmt::Debug>() {}
    fn all<N: Space>() {
        may::<AddressSet<N>>();
        may::<AddressSetBuilder<N>>();
        may::<FrozenSet<N>>();
        may::<Networks<'_, N>>();
        may::<IntoNetworks<N>>();
        may::<Ranges<'_, N>>();
        may::<Union<'_, N>>();
        may::<Intersection<'_, N>>();
        may::<Difference<'_, N>>();
        may::<SymmetricDifference<'_, N>>();
        may::<Complement<'_, N>>();
        may::<FreeIn<'_, N>>();
    }
    all::<Ipv4Network>();
    all::<Ipv6Network>();
    all::<IpNetwork>();
}

#[test]
fn generic_code_collects_what_it_takes_apart() {
    fn again<N: fosibegan::Network>(set: &AddressSet<N>) -> AddressSet<N> {
        set.networks().collect()
    }
    let set = set(&["10.0.0.0/8", "::/0"]);
    assert_eq!(again(&set), set);
}
