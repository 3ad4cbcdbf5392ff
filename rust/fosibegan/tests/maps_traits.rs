//! What a map does as std's maps do: iterators from both ends, comparison, text, drops and panics.

mod maps_model;

use fosibegan::prefix_map::{
    CoveredBy, Covering, Entry, IntoIter, IntoKeys, IntoValues, Iter, IterMut, Keys, OccupiedEntry,
    VacantEntry, Values, ValuesMut,
};
use fosibegan::{FrozenMap, IpNetwork, Ipv4Network, Ipv6Network, PrefixMap};
use maps_model::{Block, Random, SPACES, Tested};
use std::collections::BTreeMap;
use std::collections::hash_map::DefaultHasher;
use std::fmt::Debug;
use std::hash::{Hash, Hasher};
use std::iter::FusedIterator;
use std::net::IpAddr;
use std::panic::{AssertUnwindSafe, catch_unwind};
use std::rc::Rc;

fn network(text: &str) -> IpNetwork {
    text.parse().unwrap()
}

fn map_of<V: Clone>(entries: &[(&str, V)]) -> PrefixMap<IpNetwork, V> {
    entries
        .iter()
        .map(|(text, value)| (network(text), value.clone()))
        .collect()
}

/// Takes items from either end at random, compared with a list of what there should be.
fn from_both_ends<I>(mut items: I, mut expected: Vec<I::Item>, random: &mut Random)
where
    I: DoubleEndedIterator + ExactSizeIterator + FusedIterator,
    I::Item: PartialEq + Debug,
{
    while !expected.is_empty() {
        assert_eq!(items.len(), expected.len());
        assert_eq!(items.size_hint(), (expected.len(), Some(expected.len())));
        if random.below(2) == 0 {
            assert_eq!(items.next(), Some(expected.remove(0)));
        } else {
            assert_eq!(items.next_back(), expected.pop());
        }
    }
    for _ in 0..2 {
        assert_eq!(items.len(), 0);
        assert_eq!(items.next(), None);
        assert_eq!(items.next_back(), None);
    }
}

fn iterators<N: Tested + Debug>(seed: u64) {
    let mut random = Random::new(seed);
    for round in 0..60 {
        let mut model = BTreeMap::new();
        let mut map = PrefixMap::default();
        for _ in 0..random.below(30) {
            let (block, network) = SPACES[round % 3].block::<N>(&mut random);
            let value = random.number();
            model.insert(block, value);
            map.insert(network, value);
        }
        let keys: Vec<N> = model.keys().map(|block| N::of_block(*block)).collect();
        let values: Vec<u64> = model.values().copied().collect();
        let pairs: Vec<(N, u64)> = keys.iter().copied().zip(values.iter().copied()).collect();
        let shared: Vec<(N, &u64)> = keys.iter().copied().zip(&values).collect();
        let mut copy = values.clone();
        let changed: Vec<(N, &mut u64)> = keys.iter().copied().zip(&mut copy).collect();
        let random = &mut random;
        from_both_ends(map.iter(), shared.clone(), random);
        from_both_ends(map.iter().clone(), shared.clone(), random);
        from_both_ends(map.keys(), keys.clone(), random);
        from_both_ends(map.values(), values.iter().collect(), random);
        from_both_ends(map.iter_mut(), changed, random);
        from_both_ends(map.values_mut(), copy.iter_mut().collect(), random);
        from_both_ends(map.clone().into_iter(), pairs.clone(), random);
        from_both_ends(map.clone().into_iter().clone(), pairs, random);
        from_both_ends(map.clone().into_keys(), keys.clone(), random);
        from_both_ends(map.clone().into_values(), values.clone(), random);
        assert_eq!(map.iter().last(), shared.last().copied());
        assert_eq!(
            map.iter().map(|(_, value)| *value).collect::<Vec<_>>(),
            values
        );
        assert_eq!(
            map.values()
                .fold(0, |sum: u64, value| sum.wrapping_add(*value)),
            {
                values
                    .iter()
                    .fold(0, |sum: u64, value| sum.wrapping_add(*value))
            }
        );
        let mut frozen = map.freeze();
        from_both_ends(frozen.iter(), shared, random);
        from_both_ends(frozen.keys(), keys, random);
        from_both_ends(frozen.values(), values.iter().collect(), random);
        from_both_ends(frozen.values_mut(), copy.iter_mut().collect(), random);
    }
}

#[test]
fn iterators_go_from_both_ends() {
    iterators::<Ipv4Network>(1);
    iterators::<Ipv6Network>(2);
    iterators::<IpNetwork>(3);
}

#[test]
fn what_covers_and_what_is_covered_from_both_ends() {
    let map = map_of(&[
        ("::/0", 0),
        ("::/1", 1),
        ("::/64", 2),
        ("::/128", 3),
        ("10.0.0.0/8", 4),
    ]);
    let mut covering = map.covering(network("::/128"));
    assert_eq!(covering.size_hint(), (0, Some(129)));
    assert_eq!(covering.next_back(), Some((network("::/128"), &3)));
    assert_eq!(covering.next(), Some((network("::/0"), &0)));
    let rest = covering.clone();
    assert_eq!(covering.next_back(), Some((network("::/64"), &2)));
    assert_eq!(covering.next_back(), Some((network("::/1"), &1)));
    assert_eq!((covering.next_back(), covering.next()), (None, None));
    assert_eq!(rest.count(), 2);

    let mut within = map.covered_by(network("::/1"));
    assert_eq!(within.next_back(), Some((network("::/128"), &3)));
    assert_eq!(within.next(), Some((network("::/1"), &1)));
    assert_eq!(within.clone().last(), Some((network("::/64"), &2)));
    assert_eq!(within.next(), Some((network("::/64"), &2)));
    assert_eq!((within.next_back(), within.next()), (None, None));
    assert_eq!(map.covered_by(network("0.0.0.0/0")).count(), 1);
}

#[test]
fn texts() {
    let map = map_of(&[("10.0.0.0/8", "x"), ("2001:db8::/32", "y")]);
    assert_eq!(
        format!("{map:?}"),
        r#"{10.0.0.0/8: "x", 2001:db8::/32: "y"}"#
    );
    assert_eq!(format!("{:?}", map.clone().freeze()), format!("{map:?}"));
    assert_eq!(format!("{:?}", PrefixMap::<IpNetwork, u8>::new()), "{}");
    let pairs = r#"[(10.0.0.0/8, "x"), (2001:db8::/32, "y")]"#;
    assert_eq!(format!("{:?}", map.iter()), pairs);
    assert_eq!(format!("{:?}", map.clone().iter_mut()), pairs);
    assert_eq!(format!("{:?}", map.clone().into_iter()), pairs);
    assert_eq!(format!("{:?}", map.keys()), "[10.0.0.0/8, 2001:db8::/32]");
    assert_eq!(
        format!("{:?}", map.clone().into_keys()),
        "[10.0.0.0/8, 2001:db8::/32]"
    );
    assert_eq!(format!("{:?}", map.values()), r#"["x", "y"]"#);
    assert_eq!(format!("{:?}", map.clone().values_mut()), r#"["x", "y"]"#);
    assert_eq!(format!("{:?}", map.clone().into_values()), r#"["x", "y"]"#);
    assert_eq!(
        format!("{:?}", map.covering(network("10.1.0.0/16"))),
        r#"[(10.0.0.0/8, "x")]"#
    );
    assert_eq!(
        format!("{:?}", map.covered_by(network("::/0"))),
        r#"[(2001:db8::/32, "y")]"#
    );
    let mut rest = map.clone().into_iter();
    rest.next();
    assert_eq!(format!("{rest:?}"), r#"[(2001:db8::/32, "y")]"#);

    let mut map = map;
    let entry = map.entry(network("10.1.2.3/8"));
    let occupied = r#"Entry(OccupiedEntry { key: 10.0.0.0/8, value: "x" })"#;
    assert_eq!(format!("{entry:?}"), occupied);
    let entry = map.entry(network("10.1.2.3/9"));
    assert_eq!(format!("{entry:?}"), "Entry(VacantEntry(10.0.0.0/9))");
}

fn hash_of(value: &impl Hash) -> u64 {
    let mut hasher = DefaultHasher::new();
    value.hash(&mut hasher);
    hasher.finish()
}

/// Maps are compared and hashed as std's maps of the same entries are compared.
#[test]
fn comparison_is_that_of_the_entries_in_order() {
    let mut random = Random::new(5);
    let mut made = Vec::new();
    for _ in 0..80 {
        let mut expected = BTreeMap::new();
        for _ in 0..random.below(4) {
            let number = u128::from(random.below(2)) << 31;
            let prefix = u8::try_from(random.below(3)).unwrap();
            expected.insert(Block::of(false, number, prefix), random.below(2));
        }
        let mut entries: Vec<(Ipv4Network, u64)> = expected
            .iter()
            .map(|(block, value)| (Ipv4Network::of_block(*block), *value))
            .collect();
        if random.below(2) == 0 {
            entries.reverse();
        }
        let mut map: PrefixMap<Ipv4Network, u64> = entries.into_iter().collect();
        // An entry that comes and goes makes no difference.
        map.insert("128.0.0.0/9".parse().unwrap(), 7);
        map.remove("128.0.0.0/9".parse().unwrap());
        made.push((map, expected));
    }
    for (map, expected) in &made {
        for (other, other_expected) in &made {
            assert_eq!(map == other, expected == other_expected);
            assert_eq!(map.cmp(other), expected.cmp(other_expected));
            assert_eq!(map.partial_cmp(other), expected.partial_cmp(other_expected));
            let (frozen, other_frozen) = (map.clone().freeze(), other.clone().freeze());
            assert_eq!(frozen == other_frozen, expected == other_expected);
            assert_eq!(frozen.cmp(&other_frozen), expected.cmp(other_expected));
            if map == other {
                assert_eq!(hash_of(map), hash_of(other));
                assert_eq!(hash_of(&frozen), hash_of(&other_frozen));
            }
        }
    }
    assert_ne!(
        hash_of(&map_of(&[("::/0", 1)])),
        hash_of(&map_of(&[("::/0", 2)]))
    );
    let not_a_number = map_of(&[("::/0", f64::NAN)]);
    assert_ne!(not_a_number, not_a_number.clone());
    assert_eq!(not_a_number.partial_cmp(&not_a_number), None);
}

#[test]
fn of_equal_blocks_the_last_counts() {
    let entries = [
        (network("10.0.0.0/8"), 1),
        (network("::/0"), 2),
        (network("10.9.9.9/8"), 3),
    ];
    let expected = [(network("10.0.0.0/8"), &3), (network("::/0"), &2)];
    let map: PrefixMap<_, _> = entries.into();
    assert_eq!(map.iter().collect::<Vec<_>>(), expected);
    let collected: FrozenMap<_, _> = entries.into_iter().collect();
    assert_eq!(collected.iter().collect::<Vec<_>>(), expected);
    assert_eq!(FrozenMap::from(entries), collected);
    assert_eq!(FrozenMap::from(map.clone()), collected);
    assert_eq!(PrefixMap::from(collected), map);
    // An empty map takes all entries at once, and another one each by itself.
    let mut extended = PrefixMap::new();
    extended.extend([(network("192.0.2.0/24"), 4), (network("::1"), 5)]);
    assert_eq!(extended.values().copied().collect::<Vec<_>>(), [4, 5]);
    extended.extend(entries);
    extended.extend([(network("::/0"), 9)]);
    assert_eq!(extended.values().copied().collect::<Vec<_>>(), [3, 4, 9, 5]);
}

#[test]
fn the_entry_api() {
    let mut map = PrefixMap::new();
    *map.entry(network("10.1.2.3/8")).or_insert(1) += 10;
    *map.entry(network("10.0.0.0/8")).or_insert(1) += 100;
    assert_eq!(map.get(network("10.0.0.0/8")), Some(&111));
    map.entry(network("::/0")).or_insert_with(|| 5);
    map.entry(network("::/0")).or_insert_with(|| unreachable!());
    map.entry(network("::/1"))
        .or_insert_with_key(|key| i32::from(key.prefix()));
    map.entry(network("::/1"))
        .or_insert_with_key(|_| unreachable!());
    *map.entry(network("::/2")).or_default() += 2;
    let kept = map
        .entry(network("::/2"))
        .and_modify(|value| *value += 1)
        .or_insert(50);
    assert_eq!(*kept, 3);
    let new = map
        .entry(network("::/3"))
        .and_modify(|_| unreachable!())
        .or_insert(50);
    assert_eq!(*new, 50);
    assert_eq!(map.entry(network("::1/3")).key(), network("::/3"));
    assert_eq!(
        map.values().copied().collect::<Vec<_>>(),
        [111, 5, 1, 3, 50]
    );
    match map.entry(network("::1/4")) {
        Entry::Vacant(entry) => assert_eq!(entry.into_key(), network("::/4")),
        Entry::Occupied(_) => unreachable!(),
    }
    match map.entry(network("::1/3")) {
        Entry::Occupied(mut entry) => {
            *entry.get_mut() += 1;
            assert_eq!((entry.key(), *entry.get()), (network("::/3"), 51));
            assert_eq!(entry.insert(7), 51);
            *entry.into_mut() += 1;
        }
        Entry::Vacant(_) => unreachable!(),
    }
    match map.entry(network("::/3")) {
        Entry::Occupied(entry) => assert_eq!(entry.remove(), 8),
        Entry::Vacant(_) => unreachable!(),
    }
    assert_eq!(map.len(), 4);
}

#[test]
fn mapped_addresses() {
    // Entries, an address, and the longest match of the address in whichever form.
    let rows: [(&[&str], &str, Option<&str>); 12] = [
        (&["10.0.0.0/8"], "::ffff:10.1.2.3", Some("10.0.0.0/8")),
        (&["10.0.0.0/8"], "10.1.2.3", Some("10.0.0.0/8")),
        (&["10.0.0.0/8"], "::10.1.2.3", None),
        (
            &["::ffff:10.0.0.0/104"],
            "::ffff:10.1.2.3",
            Some("::ffff:10.0.0.0/104"),
        ),
        (&["::ffff:10.0.0.0/104"], "10.1.2.3", None),
        (
            &["10.0.0.0/8", "::ffff:10.1.2.3/128"],
            "::ffff:10.1.2.3",
            Some("10.0.0.0/8"),
        ),
        (
            &["0.0.0.0/0", "::ffff:10.1.2.3/128"],
            "::ffff:10.1.2.3",
            Some("0.0.0.0/0"),
        ),
        (&["11.0.0.0/8", "::/0"], "::ffff:10.1.2.3", Some("::/0")),
        (&["11.0.0.0/8", "::/0"], "2001:db8::", Some("::/0")),
        (&["0.0.0.0/0"], "::fffe:10.1.2.3", None),
        (&["0.0.0.0/0"], "::fffe:ffff:ffff", None),
        (&["0.0.0.0/0"], "::1:0:0:0", None),
    ];
    for (entries, addr, expected) in rows {
        let map: PrefixMap<_, _> = entries.iter().map(|text| (network(text), *text)).collect();
        let addr: IpAddr = addr.parse().unwrap();
        let expected = expected.map(|text| (network(text), text));
        let found = map
            .longest_match_mapped(addr)
            .map(|(network, text)| (network, *text));
        assert_eq!(found, expected, "{addr} in {entries:?}");
        let frozen = map.freeze();
        let found = frozen
            .longest_match_mapped(addr)
            .map(|(network, text)| (network, *text));
        assert_eq!(found, expected, "{addr} in {entries:?}");
    }
}

#[test]
fn each_value_is_dropped_once() {
    let counter = Rc::new(());
    let mut random = Random::new(9);
    for round in 0..40 {
        let mut map = PrefixMap::<IpNetwork, Rc<()>>::new();
        let mut kept = Vec::new();
        for _ in 0..200 {
            let (_, network) = SPACES[round % 3].block::<IpNetwork>(&mut random);
            match random.below(5) {
                0 => kept.extend(map.remove(network)),
                1 => kept.extend(map.insert(network, counter.clone())),
                2 => _ = map.entry(network).or_insert_with(|| counter.clone()),
                3 => map.retain(|network, _| network.prefix() % 7 > 0),
                _ => _ = map.insert(network, counter.clone()),
            }
            assert_eq!(Rc::strong_count(&counter), 1 + map.len() + kept.len());
        }
        let count = map.len();
        kept.clear();
        match round % 8 {
            0 => map.clear(),
            1 => drop(map),
            2 => drop(map.into_iter().nth(count / 2)),
            3 => {
                let frozen = map.freeze();
                assert_eq!(Rc::strong_count(&counter), 1 + count);
                assert_eq!(frozen.clone().len(), count);
                let map = frozen.into_map();
                assert_eq!(Rc::strong_count(&counter), 1 + count);
                drop(map);
            }
            4 => {
                let other = map.clone();
                assert_eq!(Rc::strong_count(&counter), 1 + 2 * count);
                drop((map, other));
            }
            5 => {
                let mut entries = map.into_iter();
                entries.next_back();
                let other = entries.clone();
                drop((entries, other));
            }
            6 => assert_eq!(map.into_values().count(), count),
            _ => assert_eq!(map.into_keys().count(), count),
        }
        assert_eq!(Rc::strong_count(&counter), 1);
    }
}

/// The map has just these, by each way of asking.
fn has_just<V: Clone + PartialEq + Debug>(map: &PrefixMap<IpNetwork, V>, expected: &[(&str, V)]) {
    let texts: Vec<_> = map
        .iter()
        .map(|(network, value)| (network.to_string(), value.clone()))
        .collect();
    let expected: Vec<_> = expected
        .iter()
        .map(|(text, value)| (text.to_string(), value.clone()))
        .collect();
    assert_eq!(texts, expected);
    assert_eq!(map.len(), expected.len());
    for (text, value) in &expected {
        let network = network(text);
        assert_eq!(map.get(network), Some(value));
        assert_eq!(
            map.longest_match(network.broadcast()).map(|found| found.1),
            {
                let covering = map.covering(network.broadcast());
                covering.last().map(|found| found.1)
            }
        );
    }
    let frozen = map.clone().freeze();
    assert_eq!(
        frozen.iter().collect::<Vec<_>>(),
        map.iter().collect::<Vec<_>>()
    );
}

#[test]
fn a_panic_in_a_closure_leaves_the_map_whole() {
    let entries = [
        ("10.0.0.0/8", 1),
        ("10.1.0.0/16", 2),
        ("10.2.0.0/16", 3),
        ("::/0", 4),
    ];
    let mut map = map_of(&entries);
    let retained = catch_unwind(AssertUnwindSafe(|| {
        map.retain(|network, value| {
            assert!(
                network.prefix() != 16 || *value != 3,
                "a panic that is wanted"
            );
            *value != 1
        });
    }));
    let inserted = catch_unwind(AssertUnwindSafe(|| {
        map.entry(network("11.0.0.0/8"))
            .or_insert_with(|| panic!("a panic that is wanted"));
    }));
    let modified = catch_unwind(AssertUnwindSafe(|| {
        _ = map
            .entry(network("::/0"))
            .and_modify(|_| panic!("a panic that is wanted"));
    }));
    assert!(retained.is_err() && inserted.is_err() && modified.is_err());
    // What was refused before the panic is gone.
    has_just(&map, &entries[1..]);
    map.insert(network("11.0.0.0/8"), 5);
    map.remove(network("10.1.0.0/16"));
    has_just(&map, &[("10.2.0.0/16", 3), ("11.0.0.0/8", 5), ("::/0", 4)]);
}

/// A value whose drop or copy panics if it is set to.
#[derive(Debug, PartialEq)]
struct Sore {
    in_drop: bool,
    in_clone: bool,
    _life: Rc<()>,
}

impl Drop for Sore {
    fn drop(&mut self) {
        assert!(
            !self.in_drop || std::thread::panicking(),
            "a panic that is wanted"
        );
    }
}

impl Clone for Sore {
    fn clone(&self) -> Self {
        assert!(!self.in_clone, "a panic that is wanted");
        Sore {
            in_drop: self.in_drop,
            in_clone: false,
            _life: self._life.clone(),
        }
    }
}

#[test]
fn a_panic_of_a_value_leaves_the_map_whole() {
    let life = Rc::new(());
    let sore = |in_drop, in_clone| Sore {
        in_drop,
        in_clone,
        _life: life.clone(),
    };
    let mut map = PrefixMap::new();
    for (text, in_drop, in_clone) in [
        ("10.0.0.0/8", false, false),
        ("10.1.0.0/16", true, false),
        ("10.2.0.0/16", false, true),
    ] {
        map.insert(network(text), sore(in_drop, in_clone));
    }
    let copied = catch_unwind(AssertUnwindSafe(|| map.clone()));
    let retained = catch_unwind(AssertUnwindSafe(|| {
        map.retain(|network, _| network.prefix() == 8)
    }));
    assert!(copied.is_err() && retained.is_err());
    // The one whose drop panics is gone, and the one after it may be.
    assert!(!map.contains_key(network("10.1.0.0/16")));
    assert!(map.contains_key(network("10.0.0.0/8")));
    assert_eq!(map.iter().count(), map.len());
    assert_eq!(Rc::strong_count(&life), 1 + map.len());
    assert_eq!(
        map.longest_match("10.1.2.3".parse().unwrap()).unwrap().0,
        network("10.0.0.0/8")
    );
    map.insert(network("10.1.0.0/16"), sore(false, false));
    assert_eq!(map.iter().count(), map.len());
    drop(map);
    assert_eq!(Rc::strong_count(&life), 1);
}

#[test]
#[should_panic(expected = "as many answers as addresses")]
fn answers_are_as_many_as_addresses() {
    let map: FrozenMap<IpNetwork, u8> = FrozenMap::default();
    map.longest_each(&["10.0.0.0".parse().unwrap()], &mut []);
}

#[test]
fn empty_maps() {
    const EMPTY: PrefixMap<IpNetwork, String> = PrefixMap::new();
    let mut map = EMPTY;
    assert!(map.is_empty());
    assert_eq!(map.longest_match("10.0.0.0".parse().unwrap()), None);
    assert_eq!(map.longest_match("::".parse().unwrap()), None);
    assert_eq!(map.get(network("0.0.0.0/0")), None);
    assert_eq!(map.remove(network("0.0.0.0/0")), None);
    assert_eq!((map.pop_first(), map.pop_last()), (None, None));
    assert_eq!(map.covering(network("::/0")).next(), None);
    assert_eq!(map.covered_by(network("::/0")).next(), None);
    map.retain(|_, _| unreachable!());
    map.insert(network("::/0"), String::new());
    map.remove(network("::/0"));
    let frozen = map.freeze();
    assert_eq!(frozen.longest_match("::".parse().unwrap()), None);
    assert_eq!(frozen.longest_match("10.0.0.0".parse().unwrap()), None);
    assert_eq!(frozen.iter().next(), None);
    assert!(frozen.into_map().is_empty());
}

#[test]
fn a_map_is_small_until_it_has_an_entry() {
    assert!(size_of::<PrefixMap<IpNetwork, u8>>() <= 32 * size_of::<usize>());
}

/// Whether a type may be sent and shared, and moved where it is pinned.
fn is_free<T: Send + Sync + Unpin>() {}

#[test]
fn maps_and_iterators_go_between_threads() {
    is_free::<PrefixMap<IpNetwork, String>>();
    is_free::<FrozenMap<Ipv6Network, String>>();
    is_free::<Iter<'_, Ipv4Network, String>>();
    is_free::<IterMut<'_, IpNetwork, String>>();
    is_free::<IntoIter<IpNetwork, String>>();
    is_free::<IntoKeys<IpNetwork, String>>();
    is_free::<IntoValues<IpNetwork, String>>();
    is_free::<Keys<'_, IpNetwork, String>>();
    is_free::<Values<'_, IpNetwork, String>>();
    is_free::<ValuesMut<'_, IpNetwork, String>>();
    is_free::<Covering<'_, IpNetwork, String>>();
    is_free::<CoveredBy<'_, IpNetwork, String>>();
    is_free::<Entry<'_, IpNetwork, String>>();
    is_free::<OccupiedEntry<'_, IpNetwork, String>>();
    is_free::<VacantEntry<'_, IpNetwork, String>>();
}

/// A map may be used where one with a shorter borrow in its values is wanted.
#[test]
fn values_that_borrow_are_covariant() {
    fn shorter<'a>(
        map: PrefixMap<IpNetwork, &'static str>,
        _: &'a str,
    ) -> PrefixMap<IpNetwork, &'a str> {
        map
    }
    let text = String::from("x");
    assert!(shorter(PrefixMap::new(), &text).is_empty());
}
