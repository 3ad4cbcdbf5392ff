//! The networks of a range, of what is left and of many together, compared with sets of addresses.

use crate::common::{Random, has_items, v4, v6};
use core::net::{IpAddr, Ipv4Addr, Ipv6Addr};
use fosibegan::{IpNetwork, Ipv4Network, Ipv6Network};
use std::collections::BTreeSet;

/// The fewest blocks for those of `count` numbers from `first` on that are in the set: each with
/// its first number, and the binary logarithm of how many numbers it has.
fn blocks(set: &BTreeSet<u128>, first: u128, bits: u8) -> Vec<(u128, u8)> {
    let last = first + ((1 << bits) - 1);
    let members = set.range(first..=last).count();
    if members == 0 {
        return Vec::new();
    }
    if members == 1 << bits {
        return vec![(first, bits)];
    }
    let mut found = blocks(set, first, bits - 1);
    found.extend(blocks(set, first + (1 << (bits - 1)), bits - 1));
    found
}

/// The networks that some blocks are, of the family with addresses of `width` bits.
fn networks(blocks: &[(u128, u8)], width: u8) -> Vec<IpNetwork> {
    let network = |&(first, bits): &(u128, u8)| {
        let address = match width {
            32 => Ipv4Addr::from_bits(first as u32).into(),
            _ => Ipv6Addr::from_bits(first).into(),
        };
        IpNetwork::new(address, width - bits).unwrap()
    };
    blocks.iter().map(network).collect()
}

/// Where a few numbers are taken from, of each family: both ends and the middle.
const PLACES: [(u128, u8); 6] = [
    (0, 32),
    (1 << 31, 32),
    (u32::MAX as u128 - 31, 32),
    (0, 128),
    (1 << 127, 128),
    (u128::MAX - 31, 128),
];

/// The networks of some bits at a place, as the addresses of the others.
fn at(place: u128, bits: u8, offset: u128, width: u8) -> IpNetwork {
    networks(&[(place + offset, bits)], width)[0]
}

/// The list as networks of their own family, if all are of it.
fn of_v4(list: &[IpNetwork]) -> Option<Vec<Ipv4Network>> {
    list.iter()
        .map(|network| Ipv4Network::try_from(*network).ok())
        .collect()
}

fn of_v6(list: &[IpNetwork]) -> Option<Vec<Ipv6Network>> {
    list.iter()
        .map(|network| Ipv6Network::try_from(*network).ok())
        .collect()
}

fn numbers(network: IpNetwork) -> BTreeSet<u128> {
    network
        .iter()
        .map(|address| match address {
            IpAddr::V4(address) => address.to_bits().into(),
            IpAddr::V6(address) => address.to_bits(),
        })
        .collect()
}

#[test]
fn what_is_left_of_a_network() {
    for (place, width) in PLACES {
        for (bits, other_bits) in (0..=5).flat_map(|bits| (0..=5).map(move |other| (bits, other))) {
            for (offset, other_offset) in [(0, 0), (0, 31), (31, 0), (13, 8), (8, 13), (16, 16)] {
                let network = at(place, bits, offset, width);
                let other = at(place, other_bits, other_offset, width);
                let left = &numbers(network) - &numbers(other);
                let expected = networks(&blocks(&left, place, 5), width);
                has_items(network.exclude(other), &expected);
                if let (IpNetwork::V4(network), IpNetwork::V4(other)) = (network, other) {
                    has_items(network.exclude(other), &of_v4(&expected).unwrap());
                }
                if let (IpNetwork::V6(network), IpNetwork::V6(other)) = (network, other) {
                    has_items(network.exclude(other), &of_v6(&expected).unwrap());
                }
            }
        }
    }
}

/// At full width: one network of each prefix length from the wide one's to the other's.
#[test]
fn what_is_left_of_large_networks() {
    for other in [
        "0.0.0.0/32",
        "255.255.255.255/32",
        "192.0.2.77/32",
        "192.0.2.77/17",
    ] {
        let other = v4(other);
        for prefix in 0..=other.prefix() {
            let network = other.supernet(prefix).unwrap();
            let left: Vec<Ipv4Network> = network.exclude(other).collect();
            assert_eq!(left.len(), usize::from(other.prefix() - prefix));
            assert!(
                left.iter()
                    .all(|part| part.is_subnet_of(network) && !part.overlaps(other))
            );
            let lengths: BTreeSet<u8> = left.iter().map(|part| part.prefix()).collect();
            assert!(lengths.into_iter().eq(prefix + 1..=other.prefix()));
            assert!(left.is_sorted());
        }
    }
    assert_eq!(v6("::/0").exclude(v6("ffff::/128")).len(), 128);
    has_items(v4("10.0.0.1/0").exclude(v4("0.0.0.0/0")), &[]);
    has_items(v6("::/0").exclude(v6("2001:db8::/0")), &[]);
    has_items(v4("10.0.0.1/8").exclude(v4("10.0.0.0/7")), &[]);
    has_items(
        v4("10.0.0.1/8").exclude(v4("11.0.0.0/8")),
        &[v4("10.0.0.0/8")],
    );
    for (network, other) in [("10.0.0.1/8", "::/0"), ("2001:db8::1/32", "0.0.0.0/0")] {
        let (network, other): (IpNetwork, IpNetwork) =
            (network.parse().unwrap(), other.parse().unwrap());
        has_items(network.exclude(other), &[network.block()]);
    }
}

#[test]
fn networks_of_a_range() {
    for (place, width) in PLACES {
        for (first, last) in (0..32).flat_map(|first| (0..32).map(move |last| (first, last))) {
            let set: BTreeSet<u128> = (first..=last).map(|offset: u128| place + offset).collect();
            let expected = networks(&blocks(&set, place, 5), width);
            let ends = at(place, 0, first, width).ip()..=at(place, 0, last, width).ip();
            has_items(IpNetwork::summarize(ends.clone()).unwrap(), &expected);
            match (*ends.start(), *ends.end()) {
                (IpAddr::V4(first), IpAddr::V4(last)) => {
                    has_items(
                        Ipv4Network::summarize(first..=last),
                        &of_v4(&expected).unwrap(),
                    );
                }
                (IpAddr::V6(first), IpAddr::V6(last)) => {
                    has_items(
                        Ipv6Network::summarize(first..=last),
                        &of_v6(&expected).unwrap(),
                    );
                }
                _ => unreachable!(),
            }
        }
    }
}

/// The networks follow each other from the first address to the last, no two of them are halves of
/// another, and their number is known.
fn fill(list: &[IpNetwork], count: usize, first: IpAddr, last: IpAddr) {
    assert_eq!(list.len(), count);
    assert_eq!(list.first().map(IpNetwork::network), Some(first));
    assert_eq!(list.last().map(IpNetwork::broadcast), Some(last));
    assert!(list.iter().all(|network| network.block() == *network));
    for pair in list.windows(2) {
        let next = IpNetwork::from(pair[0].broadcast()).next();
        assert_eq!(next.map(|network| network.ip()), Some(pair[1].ip()));
        let halves = pair[0].prefix() == pair[1].prefix()
            && pair[0].supernet(pair[0].prefix() - 1) == pair[1].supernet(pair[1].prefix() - 1);
        assert!(!halves, "{pair:?}");
    }
}

#[test]
fn networks_of_large_ranges() {
    let mut random = Random(0xb10c);
    for _ in 0..20_000 {
        let [one, other] = [(); 2].map(|()| {
            let bits = random.word() >> random.below(32);
            if random.below(2) == 0 {
                bits as u32
            } else {
                !(bits as u32)
            }
        });
        let (first, last) = (one.min(other), one.max(other));
        let range = Ipv4Addr::from_bits(first)..=Ipv4Addr::from_bits(last);
        let count = Ipv4Network::summarize(range.clone()).len();
        let list: Vec<_> = Ipv4Network::summarize(range.clone())
            .map(IpNetwork::V4)
            .collect();
        fill(&list, count, (*range.start()).into(), (*range.end()).into());

        let [one, other] = [(); 2].map(|()| {
            let bits = u128::from(random.word()) << 64 | u128::from(random.word());
            let bits = bits >> random.below(128);
            if random.below(2) == 0 { bits } else { !bits }
        });
        let (first, last) = (one.min(other), one.max(other));
        let range = Ipv6Addr::from_bits(first)..=Ipv6Addr::from_bits(last);
        let count = Ipv6Network::summarize(range.clone()).len();
        let list: Vec<_> = Ipv6Network::summarize(range.clone())
            .map(IpNetwork::V6)
            .collect();
        fill(&list, count, (*range.start()).into(), (*range.end()).into());
    }
}

#[test]
fn networks_of_the_largest_ranges() {
    let v4_range = |first, last| Ipv4Addr::from_bits(first)..=Ipv4Addr::from_bits(last);
    let v6_range = |first, last| Ipv6Addr::from_bits(first)..=Ipv6Addr::from_bits(last);
    has_items(
        Ipv4Network::summarize(v4_range(0, u32::MAX)),
        &[v4("0.0.0.0/0")],
    );
    has_items(
        Ipv6Network::summarize(v6_range(0, u128::MAX)),
        &[v6("::/0")],
    );
    assert_eq!(
        Ipv4Network::summarize(v4_range(1, u32::MAX - 1)).count(),
        62
    );
    assert_eq!(
        Ipv6Network::summarize(v6_range(1, u128::MAX - 1)).count(),
        254
    );
    assert_eq!(Ipv4Network::summarize(v4_range(1, u32::MAX)).count(), 32);
    assert_eq!(
        Ipv6Network::summarize(v6_range(0, u128::MAX - 1)).count(),
        128
    );
    has_items(Ipv4Network::summarize(v4_range(u32::MAX, 0)), &[]);
    let mut used_up = v4_range(7, 8);
    assert_eq!(used_up.by_ref().count(), 2);
    has_items(Ipv4Network::summarize(used_up), &[]);
    has_items(Ipv6Network::summarize(v6_range(1, 0)), &[]);
    let either = |first: &str, last: &str| {
        IpNetwork::summarize(first.parse().unwrap()..=last.parse().unwrap())
    };
    assert!(either("0.0.0.0", "::").is_none());
    assert!(either("::", "255.255.255.255").is_none());
    has_items(either("10.0.0.1", "10.0.0.0").unwrap(), &[]);
    has_items(either("::1", "::").unwrap(), &[]);
}

#[test]
fn networks_together() {
    let mut random = Random(0xa66);
    for round in 0..6_000 {
        let (place, width) = PLACES[round % PLACES.len()];
        let list: Vec<IpNetwork> = (0..random.below(12))
            .map(|_| at(place, random.below(4) as u8, random.below(32).into(), width))
            .collect();
        let set: BTreeSet<u128> = list.iter().flat_map(|network| numbers(*network)).collect();
        let expected = networks(&blocks(&set, place, 5), width);
        assert_eq!(IpNetwork::aggregate(list.clone()), expected);
        let around = (0..=width).rev().find_map(|prefix| {
            let around = IpNetwork::new(list.first()?.ip(), prefix).unwrap().block();
            let all = list
                .iter()
                .all(|one| around.contains(one.network()) && around.contains(one.broadcast()));
            if all { Some(around) } else { None }
        });
        assert_eq!(IpNetwork::spanning(list.clone()), around, "{list:?}");
        if width == 32 {
            let list = of_v4(&list).unwrap();
            assert_eq!(
                Ipv4Network::aggregate(list.clone()),
                of_v4(&expected).unwrap()
            );
            assert_eq!(Ipv4Network::spanning(list).map(IpNetwork::V4), around);
        } else {
            let list = of_v6(&list).unwrap();
            assert_eq!(
                Ipv6Network::aggregate(list.clone()),
                of_v6(&expected).unwrap()
            );
            assert_eq!(Ipv6Network::spanning(list).map(IpNetwork::V6), around);
        }
    }
}

#[test]
fn networks_of_two_families_together() {
    let list = |texts: &[&str]| -> Vec<IpNetwork> {
        texts.iter().map(|text| text.parse().unwrap()).collect()
    };
    let all = [
        "::/1",
        "255.255.255.255",
        "8000::/1",
        "10.0.0.0/8",
        "255.255.255.254/32",
        "::/0",
    ];
    let fewest = ["10.0.0.0/8", "255.255.255.254/31", "::/0"];
    assert_eq!(IpNetwork::aggregate(list(&all)), list(&fewest));
    assert_eq!(
        IpNetwork::aggregate(list(&["128.0.0.0/1", "0.0.0.0/1"])),
        list(&["0.0.0.0/0"])
    );
    for whole in ["0.0.0.0/0", "::/0"] {
        assert_eq!(IpNetwork::aggregate(list(&[whole])), list(&[whole]));
    }
    assert_eq!(IpNetwork::aggregate([]), []);
    assert_eq!(IpNetwork::spanning([]), None);
    assert_eq!(IpNetwork::spanning(list(&["10.0.0.0/8", "::/0"])), None);
    assert_eq!(
        IpNetwork::spanning(list(&["::/0", "::/1", "10.0.0.0/8"])),
        None
    );
    let ends = list(&["0.0.0.0/32", "255.255.255.255/32"]);
    assert_eq!(
        IpNetwork::spanning(ends),
        Some("0.0.0.0/0".parse().unwrap())
    );
    let alone = list(&["10.1.9.32/8"]);
    assert_eq!(
        IpNetwork::spanning(alone),
        Some("10.0.0.0/8".parse().unwrap())
    );
}

/// How the iterators are shown.
#[test]
fn iterators_for_debugging() {
    let (network, other) = (v4("10.0.0.0/8"), v4("10.64.0.0/10"));
    assert_eq!(
        format!("{:?}", network.exclude(other)),
        "Exclude[10.0.0.0/10, 10.128.0.0/9]"
    );
    let range = Ipv4Addr::new(10, 0, 0, 1)..=Ipv4Addr::new(10, 0, 0, 2);
    let shown = format!("{:?}", Ipv4Network::summarize(range));
    assert_eq!(shown, "Summarize[10.0.0.1/32, 10.0.0.2/32]");
}
