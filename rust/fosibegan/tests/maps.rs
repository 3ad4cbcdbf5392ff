//! Maps compared with a list that is gone through, by random operations.

mod maps_model;

use fosibegan::prefix_map::Entry;
use fosibegan::{FrozenMap, IpNetwork, Ipv4Network, Ipv6Network, PrefixMap};
use maps_model::{Block, Model, Random, SPACES, Space, Tested, read};
use std::collections::BTreeMap;

/// A map and what it should be.
struct Pair<N, V> {
    map: PrefixMap<N, V>,
    model: Model<V>,
}

impl<N: Tested> Pair<N, String> {
    fn change(&mut self, space: Space, random: &mut Random) {
        let (block, network) = space.block::<N>(random);
        let value = random.below(1000).to_string();
        match random.below(12) {
            0..6 => {
                let old = self.map.insert(network, value.clone());
                assert_eq!(old, self.model.insert(block, value));
            }
            6..8 => assert_eq!(self.map.remove(network), self.model.remove(block)),
            8 => self.change_by_entry(network, block, value),
            9 => {
                if let Some(kept) = self.map.get_mut(network) {
                    kept.push('m');
                }
                if let Some(place) = self.model.place(block) {
                    self.model.entries[place].1.push('m');
                }
            }
            10 => self.change_longest(space, random),
            _ => self.change_many(random),
        }
    }

    fn change_by_entry(&mut self, network: N, block: Block, value: String) {
        let is_new = self.model.get(block).is_none();
        match self.map.entry(network) {
            Entry::Vacant(entry) => {
                assert!(is_new);
                assert_eq!(entry.key().numbers(), block);
                assert_eq!(*entry.insert(value.clone()), value);
                self.model.insert(block, value);
            }
            Entry::Occupied(mut entry) => {
                assert_eq!(entry.key().numbers(), block);
                assert_eq!(Some(entry.get()), self.model.get(block));
                if value.len() == 3 {
                    let removed = entry.remove_entry();
                    assert_eq!(removed.0.numbers(), block);
                    assert_eq!(Some(removed.1), self.model.remove(block));
                } else {
                    let old = entry.insert(value.clone());
                    assert_eq!(Some(old), self.model.insert(block, value));
                }
            }
        }
    }

    fn change_longest(&mut self, space: Space, random: &mut Random) {
        let (is_v6, number, addr) = space.address::<N>(random);
        let expected = self.model.longest(is_v6, number);
        let found = self.map.longest_match_mut(addr).map(|(network, value)| {
            let before = (network.numbers(), value.clone());
            value.push('l');
            before
        });
        assert_eq!(found, expected);
        if let Some((block, value)) = expected {
            self.model.insert(block, value + "l");
        }
    }

    fn change_many(&mut self, random: &mut Random) {
        match random.below(40) {
            0 => {
                self.map.clear();
                self.model.entries.clear();
            }
            1..4 => {
                let mut seen = Vec::new();
                self.map.retain(|network, value| {
                    seen.push((network.numbers(), value.clone()));
                    value.push('r');
                    value.len() % 2 == 0
                });
                assert_eq!(seen, self.model.sorted());
                self.model
                    .entries
                    .iter_mut()
                    .for_each(|entry| entry.1.push('r'));
                self.model.entries.retain(|entry| entry.1.len() % 2 == 0);
            }
            4 => {
                for (network, value) in &mut self.map {
                    value.push_str(&network.numbers().prefix.to_string());
                }
                for (block, value) in &mut self.model.entries {
                    value.push_str(&block.prefix.to_string());
                }
            }
            5 => {
                self.map.values_mut().for_each(|value| value.push('v'));
                self.model
                    .entries
                    .iter_mut()
                    .for_each(|entry| entry.1.push('v'));
            }
            6 => self.map = std::mem::take(&mut self.map).freeze().into_map(),
            7 => self.map = self.map.clone(),
            8 => self.map = std::mem::take(&mut self.map).into_iter().collect(),
            9..14 => {
                let first = self.model.sorted().first().cloned();
                let popped = self
                    .map
                    .pop_first()
                    .map(|(network, value)| (network.numbers(), value));
                assert_eq!(popped, first);
                first.map(|entry| self.model.remove(entry.0));
            }
            _ => {
                let last = self.model.sorted().last().cloned();
                let popped = self
                    .map
                    .pop_last()
                    .map(|(network, value)| (network.numbers(), value));
                assert_eq!(popped, last);
                last.map(|entry| self.model.remove(entry.0));
            }
        }
    }

    fn ask(&self, space: Space, random: &mut Random) {
        let (block, network) = space.block::<N>(random);
        assert_eq!(self.map.get(network), self.model.get(block));
        assert_eq!(
            self.map.contains_key(network),
            self.model.get(block).is_some()
        );

        let (is_v6, number, addr) = space.address::<N>(random);
        let found = self.map.longest_match(addr);
        assert_eq!(
            read(found).pop(),
            self.model.longest(is_v6, number),
            "{addr}"
        );

        let covering = self.model.filtered(|other| other.covers(&block));
        assert_eq!(read(self.map.covering(network)), covering, "{network}");
        let mut backwards = read(self.map.covering(network).rev());
        backwards.reverse();
        assert_eq!(backwards, covering, "{network}");
        let covering = self.model.filtered(|other| other.has(is_v6, number));
        assert_eq!(read(self.map.covering(addr)), covering, "{addr}");

        let within = self.model.filtered(|other| block.covers(other));
        assert_eq!(read(self.map.covered_by(network)), within, "{network}");
        let mut backwards = read(self.map.covered_by(network).rev());
        backwards.reverse();
        assert_eq!(backwards, within, "{network}");
    }

    fn ask_all(&self) {
        let sorted = self.model.sorted();
        assert_eq!(self.map.len(), sorted.len());
        assert_eq!(self.map.is_empty(), sorted.is_empty());
        assert_eq!(read(&self.map), sorted);
        assert_eq!(
            read(self.map.first_key_value()).pop(),
            sorted.first().cloned()
        );
        assert_eq!(
            read(self.map.last_key_value()).pop(),
            sorted.last().cloned()
        );
    }
}

fn random_operations<N: Tested>(seed: u64) {
    for (number, space) in SPACES.into_iter().enumerate() {
        let mut random = Random::new(seed + number as u64);
        let mut pair = Pair::<N, _> {
            map: PrefixMap::default(),
            model: Model::default(),
        };
        for step in 0..6_000 {
            pair.change(space, &mut random);
            pair.ask(space, &mut random);
            if step % 16 == 0 {
                pair.ask_all();
            }
        }
    }
}

#[test]
fn random_operations_of_ipv4() {
    random_operations::<Ipv4Network>(1);
}

#[test]
fn random_operations_of_ipv6() {
    random_operations::<Ipv6Network>(11);
}

#[test]
fn random_operations_of_both_families() {
    random_operations::<IpNetwork>(21);
}

/// A map with some entries, and what it should be.
fn some<N: Tested>(space: Space, random: &mut Random, count: u64) -> Pair<N, u64> {
    let mut pair = Pair {
        map: PrefixMap::default(),
        model: Model::default(),
    };
    for value in 0..count {
        let (block, network) = space.block::<N>(random);
        pair.map.insert(network, value);
        pair.model.insert(block, value);
    }
    pair
}

fn frozen_answers<N: Tested>(seed: u64) {
    let mut random = Random::new(seed);
    for round in 0..60 {
        let space = SPACES[round % 3];
        let count = random.below(200) * random.below(2);
        let Pair { map, mut model } = some::<N>(space, &mut random, count);
        let mut frozen: FrozenMap<N, u64> = map.freeze();
        if random.below(2) == 0 {
            frozen = frozen.clone();
        }
        let mut addrs = Vec::new();
        let mut expected = Vec::new();
        for _ in 0..150 {
            let (block, network) = space.block::<N>(&mut random);
            assert_eq!(frozen.get(network), model.get(block));
            assert_eq!(frozen.contains_key(network), model.get(block).is_some());
            let covering = model.filtered(|other| other.covers(&block));
            assert_eq!(read(frozen.covering(network)), covering);
            let within = model.filtered(|other| block.covers(other));
            assert_eq!(read(frozen.covered_by(network)), within);

            let (is_v6, number, addr) = space.address::<N>(&mut random);
            assert_eq!(
                read(frozen.longest_match(addr)).pop(),
                model.longest(is_v6, number)
            );
            if let Some((network, value)) = frozen.longest_match_mut(addr) {
                *value += 1000;
                let place = model.place(network.numbers()).unwrap();
                model.entries[place].1 += 1000;
            }
            addrs.push((is_v6, number, addr));
        }
        for (is_v6, number, _) in &addrs {
            expected.push(model.longest(*is_v6, *number));
        }
        let addrs: Vec<N::Addr> = addrs.into_iter().map(|asked| asked.2).collect();
        // What was there before is no answer.
        let mut answers = vec![frozen.iter().next(); addrs.len()];
        frozen.longest_each(&addrs, &mut answers);
        let answers: Vec<_> = answers
            .into_iter()
            .map(|answer| read(answer).pop())
            .collect();
        assert_eq!(answers, expected);
        assert_eq!(read(&frozen), model.sorted());
        assert_eq!(read(&frozen.clone()), model.sorted());
        assert_eq!(frozen.len(), model.entries.len());
        assert_eq!(read(&frozen.into_map()), model.sorted());
    }
}

#[test]
fn frozen_maps_of_ipv4() {
    frozen_answers::<Ipv4Network>(31);
}

#[test]
fn frozen_maps_of_ipv6() {
    frozen_answers::<Ipv6Network>(41);
}

#[test]
fn frozen_maps_of_both_families() {
    frozen_answers::<IpNetwork>(51);
}

/// The longest match of each of 2^16 addresses, found by painting the blocks, the longest last.
fn painted(entries: &[(Block, u64)], is_v6: bool, first: u128) -> Vec<Option<(u8, u64)>> {
    let mut sorted = entries.to_vec();
    sorted.sort_by_key(|entry| entry.0.prefix);
    let mut answers = vec![None; 1 << 16];
    for (block, value) in sorted {
        for (offset, answer) in answers.iter_mut().enumerate() {
            if block.has(is_v6, first + offset as u128) {
                *answer = Some((block.prefix, value));
            }
        }
    }
    answers
}

/// Ten million questions in all, of maps and frozen maps within 2^16 addresses.
fn many_questions<N: Tested>(is_v6: bool, first: u128) {
    let mut random = Random::new(first as u64 ^ 77);
    let width = maps_model::width(is_v6);
    let mut map = PrefixMap::default();
    let mut model = Model::default();
    for value in 0..300 {
        let prefix = if value < 4 {
            value * 4
        } else {
            u64::from(width) - random.below(17)
        };
        let number = first + u128::from(random.below(1 << 16));
        let prefix = u8::try_from(prefix).unwrap();
        map.insert(N::made(is_v6, number, prefix), value);
        model.insert(Block::of(is_v6, number, prefix), value);
    }
    if first % 5 > 0 {
        map.remove(N::made(is_v6, first, 0));
        model.remove(Block::of(is_v6, first, 0));
    }
    let answers = painted(&model.entries, is_v6, first);
    let frozen = map.clone().freeze();
    for _ in 0..1_000_000 {
        let offset = random.below(1 << 16) as usize;
        let addr = N::address(is_v6, first + offset as u128);
        let expected = answers[offset];
        let found = map.longest_match(addr);
        assert_eq!(
            found.map(|(network, value)| (network.numbers().prefix, *value)),
            expected
        );
        assert_eq!(frozen.longest_match(addr), found);
    }
}

#[test]
fn ten_million_questions_of_ipv4() {
    for first in [0, 0x0a14_0000, 0xffff_0000] {
        many_questions::<Ipv4Network>(false, first);
    }
}

#[test]
fn ten_million_questions_of_ipv6() {
    for first in [0, 0x2001_0db8 << 96, u128::MAX - 0xffff] {
        many_questions::<Ipv6Network>(true, first);
    }
}

#[test]
fn ten_million_questions_of_both_families() {
    many_questions::<IpNetwork>(false, 0xffff_0000);
    many_questions::<IpNetwork>(true, u128::MAX - 0xffff);
}

/// More entries than 16 bits can number: inserted, set again, removed and asked.
fn large_maps<N: Tested>(seed: u64) {
    let mut random = Random::new(seed);
    let mut map = PrefixMap::default();
    let mut model = BTreeMap::new();
    let mut blocks = Vec::new();
    for value in 0..80_000 {
        let is_v6 = N::FAMILIES[random.below(N::FAMILIES.len() as u64) as usize];
        let number = random.wide() >> (128 - maps_model::width(is_v6));
        let block = Block::of(is_v6, number, 20 + u8::try_from(random.below(12)).unwrap());
        blocks.push(block);
        assert_eq!(
            map.insert(N::of_block(block), value),
            model.insert(block, value)
        );
    }
    for (place, block) in blocks.iter().enumerate() {
        let network = N::of_block(*block);
        match place % 3 {
            0 => assert_eq!(map.remove(network), model.remove(block)),
            1 => assert_eq!(map.insert(network, 7), model.insert(*block, 7)),
            _ => assert_eq!(map.get(network), model.get(block)),
        }
    }
    let expected: Vec<_> = model.into_iter().collect();
    assert_eq!(read(&map), expected);
    for (block, value) in &expected {
        assert_eq!(map.get(N::of_block(*block)), Some(value));
    }
    assert_eq!(read(&map.freeze()), expected);
}

#[test]
fn large_maps_of_each_family() {
    large_maps::<Ipv4Network>(61);
    large_maps::<Ipv6Network>(62);
    large_maps::<IpNetwork>(63);
}
