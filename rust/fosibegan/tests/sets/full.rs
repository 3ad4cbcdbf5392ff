//! Sets of networks of every length, compared with plain intervals.

use crate::space::{Family, Random, Space};
use fosibegan::{AddressSet, AddressSetBuilder, IpNetwork, Ipv4Network, Ipv6Network};

/// The numbers of the first and the last address of each run, in order, by family.
#[derive(Clone, Debug, Default, PartialEq)]
struct Runs {
    v4: Vec<(u128, u128)>,
    v6: Vec<(u128, u128)>,
}

impl Runs {
    fn of(&self, family: Family) -> &[(u128, u128)] {
        match family {
            Family::V4 => &self.v4,
            Family::V6 => &self.v6,
        }
    }

    fn of_mut(&mut self, family: Family) -> &mut Vec<(u128, u128)> {
        match family {
            Family::V4 => &mut self.v4,
            Family::V6 => &mut self.v6,
        }
    }

    fn contains(&self, family: Family, number: u128) -> bool {
        let runs = self.of(family);
        let before = runs.partition_point(|(first, _)| *first <= number);
        before > 0 && number <= runs[before - 1].1
    }

    /// The runs of the addresses of which the answers for the two sets say that they are in.
    fn combined(&self, other: &Self, is_in: impl Fn(bool, bool) -> bool) -> Runs {
        let mut made = Runs::default();
        for family in [Family::V4, Family::V6] {
            let mut starts = vec![0];
            for (first, last) in self.of(family).iter().chain(other.of(family)) {
                starts.push(*first);
                starts.extend(
                    last.checked_add(1)
                        .filter(|next| *next <= family.greatest()),
                );
            }
            starts.sort_unstable();
            starts.dedup();
            for (place, start) in starts.iter().enumerate() {
                let end = starts
                    .get(place + 1)
                    .map_or(family.greatest(), |next| next - 1);
                if !is_in(
                    self.contains(family, *start),
                    other.contains(family, *start),
                ) {
                    continue;
                }
                match made.of_mut(family).last_mut() {
                    Some((_, last)) if *last + 1 == *start => *last = end,
                    _ => made.of_mut(family).push((*start, end)),
                }
            }
        }
        made
    }

    fn with(&self, family: Family, first: u128, last: u128) -> Runs {
        let mut one = Runs::default();
        one.of_mut(family).push((first, last));
        self.combined(&one, |a, b| a || b)
    }

    fn without(&self, family: Family, first: u128, last: u128) -> Runs {
        let mut one = Runs::default();
        one.of_mut(family).push((first, last));
        self.combined(&one, |a, b| a && !b)
    }

    /// The number of addresses, in decimal.
    fn count(&self) -> String {
        let runs = self.v4.iter().chain(&self.v6);
        // In two halves of 64 bits, since the whole may not fit in 128.
        let (mut high, mut low) = (0u128, 0u128);
        for (first, last) in runs {
            let more = last - first;
            low += (more & u128::from(u64::MAX)) + 1;
            high += (more >> 64) + (low >> 64);
            low &= u128::from(u64::MAX);
        }
        let mut digits = Vec::new();
        while high > 0 || low > 0 {
            let rest = high % 10;
            high /= 10;
            low += rest << 64;
            digits.push(char::from(b'0' + (low % 10) as u8));
            low /= 10;
        }
        if digits.is_empty() {
            "0".into()
        } else {
            digits.iter().rev().collect()
        }
    }
}

fn runs_of<N: Space>(set: &AddressSet<N>) -> Runs {
    let mut runs = Runs::default();
    for range in set.ranges() {
        let ((family, first), (_, last)) = (N::number(*range.start()), N::number(*range.end()));
        runs.of_mut(family).push((first, last));
    }
    runs
}

/// The runs of networks in ascending order, of which each two that follow each other are joined.
fn joined<N: Space>(networks: impl Iterator<Item = N>) -> Runs {
    let mut runs = Runs::default();
    let mut before: Option<(Family, u128, u128)> = None;
    for network in networks {
        let (family, first, last) = network.ends();
        assert!(
            before.is_none_or(|(family_before, _, end)| (family_before, end) < (family, first))
        );
        match runs.of_mut(family).last_mut() {
            Some((_, end)) if *end + 1 == first => *end = last,
            _ => runs.of_mut(family).push((first, last)),
        }
        before = Some((family, first, last));
    }
    runs
}

/// The length of the fewest networks of a set: of each run, its largest blocks from both ends inwards.
fn fewest(runs: &Runs) -> usize {
    let of = |family: Family| -> usize {
        runs.of(family)
            .iter()
            .map(|(first, last)| {
                let (mut count, mut next) = (0, *first);
                loop {
                    let prefix = (0..=family.width())
                        .find(|prefix| {
                            let block = family.block(next, *prefix);
                            block.0 == next && block.1 <= *last
                        })
                        .unwrap();
                    count += 1;
                    match family.block(next, prefix).1 {
                        end if end == *last => return count,
                        end => next = end + 1,
                    }
                }
            })
            .sum()
    };
    of(Family::V4) + of(Family::V6)
}

fn assert_same<N: Space>(set: &AddressSet<N>, runs: &Runs) {
    assert_eq!(&runs_of(set), runs);
    assert_eq!(&joined(set.networks()), runs);
    assert_eq!(set.len(), fewest(runs));
    assert_eq!(set.address_count().to_string(), runs.count());
}

/// A network, and the numbers of its ends.
fn network<N: Space>(random: &mut Random) -> (N, Family, u128, u128) {
    let family = random.of(N::FAMILIES);
    let prefix = match random.below(8) {
        0 => random.of(&[0, 1, 2, family.width() - 1, family.width()]),
        _ => random.below(usize::from(family.width()) + 1) as u8,
    };
    let number = random.number(family);
    let (first, last) = family.block(number, prefix);
    (N::net(family, number, prefix), family, first, last)
}

fn change<N: Space>(set: &mut AddressSet<N>, runs: &mut Runs, random: &mut Random) {
    if random.below(6) == 0 {
        let family = random.of(N::FAMILIES);
        let (one, other) = (random.number(family), random.number(family));
        let (first, last) = (one.min(other), one.max(other));
        let range = N::addr(family, first)..=N::addr(family, last);
        let (changed, now) = if random.below(2) == 0 {
            (set.insert_range(range), runs.with(family, first, last))
        } else {
            (set.remove_range(range), runs.without(family, first, last))
        };
        assert_eq!(changed, now != *runs);
        *runs = now;
        return;
    }
    let (network, family, first, last) = network::<N>(random);
    let (changed, now) = if random.below(3) > 0 {
        (set.insert(network), runs.with(family, first, last))
    } else {
        (set.remove(network), runs.without(family, first, last))
    };
    assert_eq!(changed, now != *runs, "{network}");
    *runs = now;
}

fn random_changes<N: Space>(seed: u64) {
    let mut random = Random(seed);
    for _ in 0..60 {
        let mut set = AddressSet::<N>::default();
        let mut runs = Runs::default();
        for _ in 0..25 {
            change(&mut set, &mut runs, &mut random);
            assert_same(&set, &runs);
            let (network, family, first, last) = network::<N>(&mut random);
            let (without, with) = (
                runs.without(family, first, last),
                runs.with(family, first, last),
            );
            assert_eq!(set.covers(network), with == runs);
            assert_eq!(set.overlaps(network), without != runs);
            let free = Runs::default()
                .with(family, first, last)
                .combined(&runs, |a, b| a && !b);
            assert_eq!(joined(set.free_in(network)), free);
        }
    }
}

#[test]
fn changes() {
    random_changes::<Ipv4Network>(11);
    random_changes::<Ipv6Network>(12);
    random_changes::<IpNetwork>(13);
}

fn random_pairs<N: Space>(seed: u64) {
    let mut random = Random(seed);
    for round in 0..400 {
        let mut sets = [AddressSet::<N>::default(), AddressSet::default()];
        let mut runs = [Runs::default(), Runs::default()];
        for which in [0, 1] {
            if round % 3 == 0 && which == 1 {
                (sets[1], runs[1]) = (sets[0].clone(), runs[0].clone());
            }
            (0..random.below(12))
                .for_each(|_| change(&mut sets[which], &mut runs[which], &mut random));
        }
        let [set, other] = &sets;
        let of = |is_in: fn(bool, bool) -> bool| runs[0].combined(&runs[1], is_in);
        let (union, intersection) = (of(|a, b| a || b), of(|a, b| a && b));
        let (difference, symmetric) = (of(|a, b| a && !b), of(|a, b| a != b));
        assert_eq!(joined(set.union(other)), union);
        assert_eq!(joined(set.intersection(other)), intersection);
        assert_eq!(joined(set.difference(other)), difference);
        assert_eq!(joined(set.symmetric_difference(other)), symmetric);
        assert_same(&(set | other), &union);
        assert_same(&(set & other), &intersection);
        assert_same(&(set - other), &difference);
        assert_same(&(set ^ other), &symmetric);
        assert_eq!(set.is_subset(other), difference == Runs::default());
        assert_eq!(set.is_disjoint(other), intersection == Runs::default());
        let mut others = runs[0].combined(&Runs::default(), |a, _| !a);
        let has = |family| N::FAMILIES.contains(&family);
        others.v4.retain(|_| has(Family::V4));
        others.v6.retain(|_| has(Family::V6));
        assert_eq!(joined(set.complement()), others);
        assert_same(&!set, &others);
        assert_eq!(!!set, *set);
    }
}

#[test]
fn pairs() {
    random_pairs::<Ipv4Network>(14);
    random_pairs::<Ipv6Network>(15);
    random_pairs::<IpNetwork>(16);
}

/// Asks so many addresses of sets and of frozen ones.
fn questions<N: Space>(seed: u64, count: usize) {
    let mut random = Random(seed);
    let mut left = count;
    while left > 0 {
        let size = random.of(&[3, 40, 700, 9_000]);
        let (mut set, mut runs) = (AddressSetBuilder::<N>::default(), Runs::default());
        for _ in 0..size {
            let family = random.of(N::FAMILIES);
            let prefix = family.width() - random.below(usize::from(family.width()) - 3) as u8;
            let number = random.number(family);
            set.insert(N::net(family, number, prefix));
            runs.of_mut(family).push(family.block(number, prefix));
        }
        for family in [Family::V4, Family::V6] {
            let mut list = std::mem::take(runs.of_mut(family));
            list.sort_unstable();
            for (first, last) in list {
                match runs.of_mut(family).last_mut() {
                    Some((_, end)) if first <= end.saturating_add(1) => *end = last.max(*end),
                    _ => runs.of_mut(family).push((first, last)),
                }
            }
        }
        let set = set.build();
        assert_eq!(runs_of(&set), runs);
        let frozen = set.freeze();
        for _ in 0..left.min(250_000) {
            let family = random.of(N::FAMILIES);
            let list = runs.of(family);
            let number = match random.below(4) {
                0 => random.number(family),
                _ if list.is_empty() => random.number(family),
                choice => {
                    let (first, last) = list[random.below(list.len())];
                    let edge = if choice == 1 { first } else { last };
                    let around = edge.wrapping_add(random.below(5) as u128).wrapping_sub(2);
                    around & family.greatest()
                }
            };
            let is_in = runs.contains(family, number);
            let addr = N::addr(family, number);
            assert_eq!(
                (set.contains(addr), frozen.contains(addr)),
                (is_in, is_in),
                "{addr} in {set:?}"
            );
        }
        left -= left.min(250_000);
    }
}

/// Ten million in all; fewer where the processor may be an imitated one.
const SHARE: usize = if cfg!(target_arch = "x86_64") {
    1_000_000
} else {
    50_000
};

#[test]
fn ten_million_questions() {
    questions::<Ipv4Network>(17, 3 * SHARE);
    questions::<Ipv6Network>(18, 3 * SHARE);
    questions::<IpNetwork>(19, 4 * SHARE);
}

/// The runs of a set of a thousand networks and more, put together by each way.
#[test]
fn large_sets_by_each_way() {
    let mut random = Random(20);
    for size in [1, 63, 64, 65, 66, 500, 5_000] {
        let networks: Vec<IpNetwork> = (0..size)
            .map(|_| network::<IpNetwork>(&mut random).0)
            .collect();
        // Without those that have nearly everything.
        let networks: Vec<_> = networks
            .into_iter()
            .filter(|network| network.prefix() > 12)
            .collect();
        let set: AddressSet = networks.iter().collect();
        let mut one_by_one = AddressSet::new();
        let mut built = AddressSetBuilder::<IpNetwork>::default();
        for network in &networks {
            one_by_one.insert(*network);
            built.insert(*network);
        }
        assert_eq!(set, one_by_one);
        assert_eq!(set, built.clone().build());
        assert_eq!(set, built.clone().build());
        let mut extended: AddressSet = networks[..networks.len() / 3].iter().collect();
        extended.extend(&networks[networks.len() / 3..]);
        assert_eq!(set, extended);
        let mut extended = AddressSet::new();
        extended.extend(&networks);
        assert_eq!(set, extended);
        for network in &networks {
            extended.extend([network]);
        }
        assert_eq!(set, extended);
        let half: AddressSet = networks[..networks.len() / 2].iter().collect();
        let mut left = set.clone();
        left -= &half;
        for network in &networks[..networks.len() / 2] {
            assert!(!left.overlaps(*network));
            one_by_one.remove(*network);
        }
        assert_eq!(left, one_by_one);
        assert_eq!(left | half, set);
    }
}
