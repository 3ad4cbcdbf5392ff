//! What sets are made of.

use crate::space::Random;
use fosibegan::{
    AddressCount, AddressSet, AddressSetBuilder, Addresses, IpNetwork, Ipv4Network, Ipv6Network,
    Network,
};
use std::cmp::Ordering;
use std::collections::BTreeSet;
use std::net::{IpAddr, Ipv4Addr, Ipv6Addr};
use std::ops::RangeInclusive;
use std::panic::catch_unwind;

fn v4(text: &str) -> Ipv4Addr {
    text.parse().unwrap()
}

fn v6(text: &str) -> Ipv6Addr {
    text.parse().unwrap()
}

fn ip(text: &str) -> IpAddr {
    text.parse().unwrap()
}

fn texts<N: Network>(set: &AddressSet<N>) -> Vec<String> {
    set.networks().map(|network| network.to_string()).collect()
}

#[test]
fn sets_of_one_family() {
    let networks: [Ipv4Network; 2] = [
        "10.0.0.1/31".parse().unwrap(),
        "10.0.0.2/31".parse().unwrap(),
    ];
    let sets: [AddressSet<Ipv4Network>; 6] = [
        networks.into(),
        networks.iter().collect(),
        networks.into_iter().collect(),
        (0..4).map(|last| Ipv4Addr::new(10, 0, 0, last)).collect(),
        [v4("10.0.0.0")..=v4("10.0.0.3")].into(),
        [
            &(v4("10.0.0.0")..=v4("10.0.0.1")),
            &(v4("10.0.0.1")..=v4("10.0.0.3")),
        ]
        .into(),
    ];
    sets.iter()
        .for_each(|set| assert_eq!(texts(set), ["10.0.0.0/30"]));
    let sets: [AddressSet<Ipv6Network>; 4] = [
        ["2001:db8::9/127".parse::<Ipv6Network>().unwrap()].into(),
        [v6("2001:db8::8"), v6("2001:db8::9")].iter().collect(),
        [v6("2001:db8::9"), v6("2001:db8::8")].into(),
        [v6("2001:db8::8")..=v6("2001:db8::9")].into(),
    ];
    sets.iter()
        .for_each(|set| assert_eq!(texts(set), ["2001:db8::8/127"]));
}

#[test]
fn sets_of_both_families() {
    let mut set = AddressSet::new();
    set.extend(["10.0.0.0/32".parse::<IpNetwork>().unwrap()]);
    set.extend(["10.0.0.1/32".parse::<Ipv4Network>().unwrap()]);
    set.extend(["2001:db8::/127".parse::<Ipv6Network>().unwrap()]);
    set.extend([ip("10.0.0.2"), ip("2001:db8::2")]);
    set.extend(&[v4("10.0.0.3")]);
    set.extend(&[v6("2001:db8::3")]);
    set.extend([
        ip("10.0.0.4")..=ip("10.0.0.5"),
        ip("2001:db8::4")..=ip("2001:db8::5"),
    ]);
    set.extend([v4("10.0.0.6")..=v4("10.0.0.7")]);
    set.extend(&[v6("2001:db8::6")..=v6("2001:db8::7")]);
    set.extend(Vec::<IpAddr>::new());
    assert_eq!(texts(&set), ["10.0.0.0/29", "2001:db8::/125"]);
}

#[test]
fn ranges_that_end_before_they_begin_have_no_addresses() {
    let reversed = [ip("10.0.0.3")..=ip("10.0.0.2"), ip("::3")..=ip("::2")];
    assert!(AddressSet::from_iter(&reversed).is_empty());
    assert!(AddressSet::<IpNetwork>::from_iter([v4("10.0.0.3")..=v4("10.0.0.2")]).is_empty());
    assert!(AddressSet::<IpNetwork>::from_iter([v6("::3")..=v6("::2")]).is_empty());
    assert!(AddressSet::<Ipv4Network>::from_iter([v4("10.0.0.3")..=v4("10.0.0.2")]).is_empty());
    let mut set = AddressSet::from(["0.0.0.0/0".parse::<IpNetwork>().unwrap()]);
    for range in reversed {
        assert!(!set.insert_range(range.clone()) && !set.remove_range(range));
    }
    assert_eq!(texts(&set), ["0.0.0.0/0"]);
    // A range of which an iterator has taken everything still has both ends.
    let mut used = v4("10.0.0.1")..=v4("10.0.0.1");
    used.next();
    assert!(used.is_empty());
    no_addresses_of::<Ipv4Network>(&used);
    assert!(AddressSet::<IpNetwork>::from([used]).is_empty());
    let mut used = v6("2001:db8::1")..=v6("2001:db8::1");
    used.next_back();
    assert!(used.is_empty());
    no_addresses_of::<Ipv6Network>(&used);
    assert!(AddressSet::<IpNetwork>::from([used]).is_empty());
}

/// A set that is made of the range is empty, and nothing of the range is added or removed.
fn no_addresses_of<N: Network>(range: &RangeInclusive<N::Addr>)
where
    RangeInclusive<N::Addr>: Addresses<N>,
{
    assert!(AddressSet::<N>::from([range.clone()]).is_empty());
    let mut builder = AddressSetBuilder::<N>::default();
    builder.insert_range(range.clone());
    assert!(builder.build().is_empty());
    let mut set = AddressSet::<N>::default();
    assert!(!set.insert_range(range.clone()) && set.is_empty());
    let mut whole = !set;
    assert!(!whole.remove_range(range.clone()) && (!whole).is_empty());
}

#[test]
fn ranges_of_two_families_are_refused() {
    let two: [RangeInclusive<IpAddr>; 4] = [
        ip("10.0.0.0")..=ip("::1"),
        ip("::1")..=ip("10.0.0.0"),
        ip("255.255.255.255")..=ip("::"),
        ip("0.0.0.0")..=ip("::ffff:0.0.0.1"),
    ];
    for range in two {
        let refusal = |range: RangeInclusive<IpAddr>| {
            let words = catch_unwind(move || AddressSet::from([range])).unwrap_err();
            words.downcast::<String>().map(|words| *words).unwrap()
        };
        let words = refusal(range.clone());
        assert_eq!(
            words,
            format!(
                "the range {}..={} has ends of two address families",
                range.start(),
                range.end()
            )
        );
        assert!(
            catch_unwind({
                let range = range.clone();
                move || AddressSet::new().insert_range(range)
            })
            .is_err()
        );
        assert!(
            catch_unwind({
                let range = range.clone();
                move || AddressSet::new().remove_range(range)
            })
            .is_err()
        );
        assert!(catch_unwind(move || AddressSetBuilder::new().insert_range(range)).is_err());
    }
}

#[test]
fn counts_are_exact() {
    let rows: [(&[&str], &str); 8] = [
        (&[], "0"),
        (&["10.0.0.0/32"], "1"),
        (&["0.0.0.0/0"], "4294967296"),
        (
            &["::/1", "0.0.0.0/0"],
            "170141183460469231731687303720179073024",
        ),
        (&["::/0"], "340282366920938463463374607431768211456"),
        (
            &["::/0", "10.0.0.0/32"],
            "340282366920938463463374607431768211457",
        ),
        (
            &["::/0", "0.0.0.0/0"],
            "340282366920938463463374607436063178752",
        ),
        (
            &["8000::/1", "4000::/2", "2000::/3"],
            "297747071055821155530452781502797185024",
        ),
    ];
    let mut counts = Vec::new();
    for (texts, number) in rows {
        let set: AddressSet = texts
            .iter()
            .map(|text| text.parse::<IpNetwork>().unwrap())
            .collect();
        let count = set.address_count();
        assert_eq!(count.to_string(), number);
        assert_eq!(format!("{count:?}"), format!("AddressCount({number})"));
        assert_eq!(
            format!("{count:>42}|{count:-<42}"),
            format!("{number:>42}|{number:-<42}")
        );
        assert_eq!(format!("{count:042}"), format!("{number:0>42}"));
        assert_eq!(u128::try_from(count).ok(), number.parse::<u128>().ok());
        assert_eq!(u64::try_from(count).ok(), number.parse::<u64>().ok());
        assert_eq!(u32::try_from(count).ok(), number.parse::<u32>().ok());
        assert_eq!(usize::try_from(count).ok(), number.parse::<usize>().ok());
        for other in [0, 1, 1 << 32, (1 << 32) - 1, 1 << 127, u128::MAX] {
            let order = number
                .parse::<u128>()
                .map_or(Ordering::Greater, |number| number.cmp(&other));
            assert_eq!(count.partial_cmp(&other), Some(order), "{count} {other}");
            assert_eq!(count == other, order.is_eq());
            assert_eq!(count.cmp(&AddressCount::from(other)), order);
        }
        counts.push(count);
    }
    let in_order = [0, 1, 2, 3, 7, 4, 5, 6].map(|place| counts[place]);
    assert!(in_order.windows(2).all(|pair| pair[0] < pair[1]));
    assert_eq!(AddressCount::default(), 0);
    // All but one of both families: the sum of the halves has a carry.
    let all = !AddressSet::new();
    let but_one = &all - &[v6("ffff::1")].into();
    assert_eq!(
        but_one.address_count().to_string(),
        "340282366920938463463374607436063178751"
    );
}

/// However often the same networks come, a builder has no more memory than for a few of them.
#[test]
fn a_builder_keeps_what_is_distinct() {
    let mut random = Random(31);
    let mut builder = AddressSetBuilder::<Ipv4Network>::default();
    for _ in 0..3_000_000 {
        let last = random.below(50) as u8;
        builder.insert(Ipv4Network::new(Ipv4Addr::new(192, 0, last, 1), 30).unwrap());
    }
    assert_eq!(builder.build().len(), 50);
}

/// A builder whose list is reduced a few times has everything in the end.
#[test]
fn a_builder_loses_nothing() {
    let number = |place: u32| place.wrapping_mul(0x9e37_79b1) | 1;
    let mut builder = AddressSetBuilder::new();
    let mut numbers = BTreeSet::new();
    for place in 0..600_000 {
        let number = number(place);
        builder.insert(IpAddr::V4(number.into()).into());
        builder.insert(IpAddr::V6(Ipv6Addr::from_bits(u128::from(number) << 70)).into());
        numbers.insert(number);
    }
    let set = builder.build();
    let v4 = numbers
        .iter()
        .map(|number| IpAddr::V4((*number).into()).into());
    let v6 = numbers
        .iter()
        .map(|number| IpAddr::V6(Ipv6Addr::from_bits(u128::from(*number) << 70)).into());
    assert!(set.networks().eq(v4.chain(v6)));
}

#[test]
fn memory_may_be_asked_for() {
    let mut builder = AddressSetBuilder::<Ipv6Network>::with_capacity(10);
    assert!(builder.try_reserve(usize::MAX / 8).is_err());
    builder.try_reserve(1000).unwrap();
    builder.reserve(1000);
    builder.insert("::1/128".parse().unwrap());
    assert_eq!(texts(&builder.build()), ["::1/128"]);
}
