//! What the iterators of sets have in addition to `next`.

use crate::space::{Random, Space};
use fosibegan::{AddressSet, IpNetwork, Ipv4Network, Ipv6Network};
use std::fmt::Debug;
use std::iter::FusedIterator;

/// Sets of a few networks, some of them with one family alone or with the ends of a family.
fn sets<N: Space>(seed: u64) -> Vec<AddressSet<N>> {
    let mut random = Random(seed);
    let mut sets = vec![AddressSet::default()];
    for size in 0..40 {
        let mut set = AddressSet::<N>::default();
        for _ in 0..size % 9 {
            let family = if size % 3 == 0 {
                N::FAMILIES[0]
            } else {
                random.of(N::FAMILIES)
            };
            let prefix = family.width() - random.below(5) as u8;
            // Few places, so that networks follow each other.
            let begin = random.of(&[0, family.greatest() - 60, 0xc000_0000]);
            set.insert(N::net(family, begin + random.below(60) as u128, prefix));
        }
        sets.push(set);
    }
    sets
}

fn assert_hint<I: Iterator>(iterator: &I, left: usize) {
    let (least, most) = iterator.size_hint();
    assert!(
        least <= left && most.is_none_or(|most| left <= most),
        "{least} {most:?} {left}"
    );
}

/// The iterator yields these items, says how many at each step, goes on saying that it is at its end, and its copies go on
/// where it is.
fn forwards<I>(mut iterator: I, items: &[I::Item])
where
    I: FusedIterator + Clone,
    I::Item: PartialEq + Debug + Clone,
{
    for (place, item) in items.iter().enumerate() {
        assert_hint(&iterator, items.len() - place);
        assert!(iterator.clone().eq(items[place..].iter().cloned()));
        assert_eq!(iterator.next().as_ref(), Some(item));
    }
    assert_hint(&iterator, 0);
    assert_eq!((0..3).find_map(|_| iterator.next()), None);
    assert_hint(&iterator, 0);
}

/// The same from both ends in each order of `next` and `next_back`.
fn from_both_ends<I>(iterator: &I, items: &[I::Item], random: &mut Random)
where
    I: DoubleEndedIterator + FusedIterator + Clone,
    I::Item: PartialEq + Debug + Clone,
{
    assert!(iterator.clone().rev().eq(items.iter().rev().cloned()));
    for _ in 0..8 {
        let (mut iterator, mut left) = (iterator.clone(), items);
        while let [first, .., last] | [first @ last] = left {
            if random.below(2) == 0 {
                assert_eq!(iterator.next().as_ref(), Some(first));
                left = &left[1..];
            } else {
                assert_eq!(iterator.next_back().as_ref(), Some(last));
                left = &left[..left.len() - 1];
            }
            assert_hint(&iterator, left.len());
        }
        assert_eq!(
            (iterator.next_back(), iterator.next(), iterator.next_back()),
            (None, None, None)
        );
    }
}

/// Each skip of `nth` and `nth_back`, and what is left then.
fn by_number<I>(iterator: &I, items: &[I::Item])
where
    I: DoubleEndedIterator + ExactSizeIterator + Clone,
    I::Item: PartialEq + Debug + Clone,
{
    assert_eq!(
        (iterator.len(), iterator.clone().count()),
        (items.len(), items.len())
    );
    assert_eq!(iterator.clone().last().as_ref(), items.last());
    for n in (0..items.len() + 2).chain([usize::MAX]) {
        let mut left = iterator.clone();
        assert_eq!(left.nth(n).as_ref(), items.get(n));
        let from = items.len().min(n.saturating_add(1));
        assert!(left.clone().eq(items[from..].iter().cloned()));
        assert_eq!(left.len(), items.len() - from);
        let mut left = iterator.clone();
        assert_eq!(left.nth_back(n).as_ref(), items.iter().rev().nth(n));
        let to = items.len().saturating_sub(n.saturating_add(1));
        assert!(left.eq(items[..to].iter().cloned()));
        for back in 0..items.len() {
            let mut left = iterator.clone();
            left.nth(n);
            assert_eq!(
                left.nth_back(back).as_ref(),
                items[from..].iter().rev().nth(back)
            );
        }
    }
}

fn networks_and_ranges<N: Space>(seed: u64) {
    let mut random = Random(seed + 100);
    for set in sets::<N>(seed) {
        let networks: Vec<N> = set.networks().collect();
        assert!(networks.is_sorted());
        forwards(set.networks(), &networks);
        forwards(set.clone().into_iter(), &networks);
        from_both_ends(&set.networks(), &networks, &mut random);
        from_both_ends(&set.clone().into_iter(), &networks, &mut random);
        by_number(&set.networks(), &networks);
        by_number(&set.clone().into_iter(), &networks);
        let mut collected = Vec::new();
        for network in &set {
            collected.push(network);
        }
        assert_eq!(collected, networks);
        assert!(set.iter().eq(set.networks()));
        let ranges: Vec<_> = set.ranges().collect();
        forwards(set.ranges(), &ranges);
        from_both_ends(&set.ranges(), &ranges, &mut random);
    }
}

#[test]
fn networks_and_ranges_from_both_ends() {
    networks_and_ranges::<Ipv4Network>(21);
    networks_and_ranges::<Ipv6Network>(22);
    networks_and_ranges::<IpNetwork>(23);
}

fn lazy<N: Space>(seed: u64) {
    let sets = sets::<N>(seed);
    for set in &sets {
        forwards(set.complement(), &set.complement().collect::<Vec<_>>());
        let family = N::FAMILIES[N::FAMILIES.len() - 1];
        for prefix in [0, family.width() - 5, family.width()] {
            let within = N::net(family, 8, prefix);
            forwards(
                set.free_in(within),
                &set.free_in(within).collect::<Vec<_>>(),
            );
        }
        for other in sets.iter().step_by(3) {
            forwards(set.union(other), &set.union(other).collect::<Vec<_>>());
            forwards(
                set.intersection(other),
                &set.intersection(other).collect::<Vec<_>>(),
            );
            forwards(
                set.difference(other),
                &set.difference(other).collect::<Vec<_>>(),
            );
            let both = set.symmetric_difference(other);
            forwards(both.clone(), &both.collect::<Vec<_>>());
        }
    }
}

#[test]
fn what_two_sets_yield() {
    lazy::<Ipv4Network>(24);
    lazy::<Ipv6Network>(25);
    lazy::<IpNetwork>(26);
}

/// A hundred thousand skips among a million networks take no time.
#[test]
fn nth_takes_constant_time() {
    const LEN: usize = 1 << 20;
    let network = |place: usize| Ipv4Network::new(((place as u32) << 12).into(), 32).unwrap();
    let set: AddressSet<Ipv4Network> = (0..LEN).map(network).collect();
    let begin = std::time::Instant::now();
    for n in 0..100_000 {
        let mut networks = set.networks();
        assert_eq!(networks.nth(n * 10), Some(network(n * 10)));
        let left = LEN - n * 10 - 1;
        let from_back = left.checked_sub(n + 1).map(|_| network(LEN - 1 - n));
        assert_eq!(networks.nth_back(n), from_back);
    }
    assert!(begin.elapsed().as_secs() < 10, "{:?}", begin.elapsed());
}
