//! Random operations, each compared with a `BTreeSet` of addresses: at the ends of both families, and where the IPv4-mapped
//! addresses begin and end.

use crate::space::{Family, Random, Space};
use fosibegan::{AddressSet, IpNetwork, Ipv4Network, Ipv6Network};
use std::collections::BTreeSet;

/// So many addresses are in play at each place.
const SIZE: u128 = 256;
const PLACES: [(Family, u128); 6] = [
    (Family::V4, 0),
    (Family::V4, u32::MAX as u128 - (SIZE - 1)),
    (Family::V6, 0),
    (Family::V6, 0xffff_0000_0000 - SIZE / 2),
    (Family::V6, 0xffff_ffff_ffff - (SIZE / 2 - 1)),
    (Family::V6, u128::MAX - (SIZE - 1)),
];

type Model<N> = BTreeSet<<N as fosibegan::Network>::Addr>;

/// A network or a range within one of the places, by the numbers of its ends.
#[derive(Clone, Copy, Debug)]
struct Span {
    family: Family,
    first: u128,
    last: u128,
    prefix: Option<u8>,
}

impl Span {
    fn members<N: Space>(self) -> impl Iterator<Item = N::Addr> {
        (self.first..=self.last).map(move |number| N::addr(self.family, number))
    }

    /// The network, with host bits.
    fn network<N: Space>(self, random: &mut Random) -> Option<N> {
        let number = self.first + u128::from(random.next()) % (self.last - self.first + 1);
        Some(N::net(self.family, number, self.prefix?))
    }
}

fn places<N: Space>() -> Vec<(Family, u128)> {
    PLACES
        .into_iter()
        .filter(|(family, _)| N::FAMILIES.contains(family))
        .collect()
}

/// A span at a place: a network of at most half of it, or a range.
fn span<N: Space>(random: &mut Random) -> Span {
    let (family, begin) = random.of(&places::<N>());
    let number = begin + u128::from(random.next()) % SIZE;
    let other = begin + u128::from(random.next()) % SIZE;
    if random.below(4) == 0 {
        return Span {
            family,
            first: number.min(other),
            last: number.max(other),
            prefix: None,
        };
    }
    let prefix = family.width() - random.below(8) as u8;
    let (first, last) = family.block(number, prefix);
    Span {
        family,
        first,
        last,
        prefix: Some(prefix),
    }
}

/// The fewest networks of a set, by the simplest way: at each address that is left, the largest block that begins there and
/// has no other.
fn fewest<N: Space>(model: &Model<N>) -> Vec<N> {
    let mut networks = Vec::new();
    let mut left = model.clone();
    while let Some(addr) = left.first().copied() {
        let (family, number) = N::number(addr);
        let is_in = |number| model.contains(&N::addr(family, number));
        let prefix = (family.width() - 9..=family.width())
            .find(|prefix| {
                let (first, last) = family.block(number, *prefix);
                first == number && (first..=last).all(is_in)
            })
            .unwrap();
        let (first, last) = family.block(number, prefix);
        (first..=last).for_each(|number| assert!(left.remove(&N::addr(family, number))));
        networks.push(N::net(family, number, prefix));
    }
    networks
}

fn longest_ranges<N: Space>(model: &Model<N>) -> Vec<(N::Addr, N::Addr)> {
    let mut ranges: Vec<(N::Addr, N::Addr)> = Vec::new();
    for addr in model {
        let (family, number) = N::number(*addr);
        match ranges.last_mut() {
            Some((_, last)) if number > 0 && N::number(*last) == (family, number - 1) => {
                *last = *addr
            }
            _ => ranges.push((*addr, *addr)),
        }
    }
    ranges
}

fn assert_same<N: Space>(set: &AddressSet<N>, model: &Model<N>) {
    let networks = fewest::<N>(model);
    assert!(
        set.networks().eq(networks.iter().copied()),
        "{set:?} is not {networks:?}"
    );
    assert_eq!(set.len(), networks.len());
    assert_eq!(set.is_empty(), model.is_empty());
    assert_eq!(set.address_count(), model.len() as u128);
    let ranges: Vec<_> = set.ranges().map(|range| range.into_inner()).collect();
    assert_eq!(ranges, longest_ranges::<N>(model));
}

/// Every address in play, and those around.
fn assert_contains_the_same<N: Space>(set: &AddressSet<N>, model: &Model<N>) {
    let frozen = set.freeze();
    assert_eq!(frozen.is_empty(), model.is_empty());
    for (family, begin) in places::<N>() {
        let around =
            begin.saturating_sub(3)..=begin.saturating_add(SIZE + 3).min(family.greatest());
        for number in around {
            let addr = N::addr(family, number);
            assert_eq!(
                set.contains(addr),
                model.contains(&addr),
                "{addr} in {set:?}"
            );
            assert_eq!(
                frozen.contains(addr),
                model.contains(&addr),
                "{addr} in {set:?}, frozen"
            );
        }
    }
}

fn assert_answers<N: Space>(set: &AddressSet<N>, model: &Model<N>, random: &mut Random) {
    let span = span::<N>(random);
    let Some(network) = span.network::<N>(random) else {
        return;
    };
    let all = span.members::<N>().all(|addr| model.contains(&addr));
    let any = span.members::<N>().any(|addr| model.contains(&addr));
    assert_eq!(set.covers(network), all, "{network} in {set:?}");
    assert_eq!(set.overlaps(network), any, "{network} and {set:?}");
    let free: Model<N> = span
        .members::<N>()
        .filter(|addr| !model.contains(addr))
        .collect();
    let free = fewest::<N>(&free);
    assert!(
        set.free_in(network).eq(free.iter().copied()),
        "{network} without {set:?}"
    );
    let widest = free.iter().map(|network| (*network).into().prefix()).min();
    let largest = free
        .iter()
        .find(|network| Some((**network).into().prefix()) == widest);
    assert_eq!(set.largest_free(network), largest.copied());
    let prefix = span.family.width() - random.below(10) as u8;
    let first = (span.first..=span.last)
        .filter(|number| {
            Some(prefix) >= span.prefix && span.family.block(*number, prefix).0 == *number
        })
        .find(|number| {
            let (first, last) = span.family.block(*number, prefix);
            (first..=last).all(|number| !model.contains(&N::addr(span.family, number)))
        });
    let first = first.map(|number| N::net(span.family, number, prefix));
    assert_eq!(
        set.first_free(network, prefix),
        first,
        "/{prefix} in {network} without {set:?}"
    );
    assert_eq!(set.first_free(network, span.family.width() + 1), None);
    assert_eq!(set.first_free(network, u8::MAX), None);
}

fn change<N: Space>(set: &mut AddressSet<N>, model: &mut Model<N>, random: &mut Random) {
    let span = span::<N>(random);
    let before = model.len();
    let range = N::addr(span.family, span.first)..=N::addr(span.family, span.last);
    if random.below(5) < 2 {
        let changed = match span.network::<N>(random) {
            Some(network) => set.remove(network),
            None => set.remove_range(range),
        };
        span.members::<N>().for_each(|addr| _ = model.remove(&addr));
        assert_eq!(changed, model.len() < before);
    } else {
        let changed = match span.network::<N>(random) {
            Some(network) => set.insert(network),
            None => set.insert_range(range),
        };
        model.extend(span.members::<N>());
        assert_eq!(changed, model.len() > before);
    }
}

fn random_changes<N: Space>(seed: u64) {
    let mut random = Random(seed);
    for _ in 0..16 {
        let mut set = AddressSet::<N>::default();
        let mut model = Model::<N>::new();
        for step in 0..40 {
            change(&mut set, &mut model, &mut random);
            assert_same(&set, &model);
            (0..8).for_each(|_| assert_answers(&set, &model, &mut random));
            if step % 8 == 0 {
                assert_contains_the_same(&set, &model);
            }
        }
        set.clear();
        assert_same(&set, &Model::<N>::new());
    }
}

#[test]
fn changes() {
    random_changes::<Ipv4Network>(1);
    random_changes::<Ipv6Network>(2);
    random_changes::<IpNetwork>(3);
}

fn some<N: Space>(random: &mut Random) -> (AddressSet<N>, Model<N>) {
    let mut set = AddressSet::<N>::default();
    let mut model = Model::<N>::new();
    (0..random.below(24)).for_each(|_| change(&mut set, &mut model, random));
    (set, model)
}

fn random_pairs<N: Space>(seed: u64) {
    let mut random = Random(seed);
    for round in 0..120 {
        let (set, model) = some::<N>(&mut random);
        let (other, others) = match round % 4 {
            // Two sets that share most of their edges, and one that lies in the other.
            0 => {
                let (mut other, mut others) = (set.clone(), model.clone());
                (0..random.below(3)).for_each(|_| change(&mut other, &mut others, &mut random));
                (other, others)
            }
            _ => some::<N>(&mut random),
        };
        let union: Model<N> = model.union(&others).copied().collect();
        let intersection: Model<N> = model.intersection(&others).copied().collect();
        let difference: Model<N> = model.difference(&others).copied().collect();
        let symmetric: Model<N> = model.symmetric_difference(&others).copied().collect();
        assert!(set.union(&other).eq(fewest::<N>(&union)));
        assert!(set.intersection(&other).eq(fewest::<N>(&intersection)));
        assert!(set.difference(&other).eq(fewest::<N>(&difference)));
        assert!(
            set.symmetric_difference(&other).eq(fewest::<N>(&symmetric)),
            "{set:?} ^ {other:?}"
        );
        assert_eq!(set.is_subset(&other), model.is_subset(&others));
        assert_eq!(set.is_superset(&other), model.is_superset(&others));
        assert_eq!(set.is_disjoint(&other), model.is_disjoint(&others));
        assert_eq!(set == other, model == others);
        crate::traits::operators(
            &set,
            &other,
            [&union, &intersection, &difference, &symmetric].map(made),
        );
    }
}

/// The set of these addresses, one by one.
fn made<N: Space>(model: &Model<N>) -> AddressSet<N> {
    fewest::<N>(model).into_iter().collect()
}

#[test]
fn pairs() {
    random_pairs::<Ipv4Network>(4);
    random_pairs::<Ipv6Network>(5);
    random_pairs::<IpNetwork>(6);
}
