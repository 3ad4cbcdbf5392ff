//! Frozen sets, and IPv4-mapped addresses.

use crate::space::{Family, Random, Space};
use fosibegan::{AddressSet, AddressSetBuilder, FrozenSet, IpNetwork, Ipv4Network, Ipv6Network};
use std::net::{IpAddr, Ipv4Addr, Ipv6Addr};

fn columns<N: Space>(seed: u64) {
    let mut random = Random(seed);
    for size in [0, 1, 2, 30, 3000] {
        let networks: Vec<N> = (0..size)
            .map(|_| {
                let family = random.of(N::FAMILIES);
                N::net(
                    family,
                    random.number(family),
                    family.width() - random.below(20) as u8,
                )
            })
            .collect();
        let set: AddressSet<N> = {
            let mut builder = AddressSetBuilder::default();
            networks.iter().for_each(|network| builder.insert(*network));
            builder.build()
        };
        let frozen = [
            set.freeze(),
            FrozenSet::from(&set),
            FrozenSet::from(set.clone()),
            set.networks().collect(),
        ];
        let addrs: Vec<N::Addr> = (0..size * 3)
            .map(|place| match networks.get(place) {
                Some(network) => {
                    let network: IpNetwork = (*network).into();
                    let (family, number) = IpNetwork::number(network.ip());
                    N::addr(family, number)
                }
                None => {
                    let family = random.of(N::FAMILIES);
                    N::addr(family, random.number(family))
                }
            })
            .collect();
        let expected: Vec<bool> = addrs.iter().map(|addr| set.contains(*addr)).collect();
        for frozen in frozen {
            for before in [true, false] {
                let mut answers = vec![before; addrs.len()];
                frozen.clone().contains_each(&addrs, &mut answers);
                assert_eq!(answers, expected);
            }
            assert_eq!((frozen.is_empty(), frozen.len()), (size == 0, set.len()));
            assert_eq!(format!("{frozen:?}"), format!("{set:?}"));
            assert_eq!((frozen.as_set(), &frozen.clone().into_set()), (&set, &set));
            assert_eq!(AddressSet::from(frozen), set);
        }
    }
}

#[test]
fn many_at_once() {
    columns::<Ipv4Network>(41);
    columns::<Ipv6Network>(42);
    columns::<IpNetwork>(43);
}

#[test]
#[should_panic(expected = "there are not as many answers as addresses")]
fn fewer_answers_than_addresses_are_refused() {
    FrozenSet::<IpNetwork>::default().contains_each(&[IpAddr::V4(Ipv4Addr::LOCALHOST)], &mut []);
}

#[test]
#[should_panic(expected = "there are not as many answers as addresses")]
fn more_answers_than_addresses_are_refused() {
    FrozenSet::<Ipv4Network>::default().contains_each(&[], &mut [true]);
}

/// Sets of one network that has all of a family, or the first or the last address alone, are not empty.
#[test]
fn what_is_not_empty() {
    for text in [
        "0.0.0.0/0",
        "0.0.0.0/32",
        "255.255.255.255/32",
        "::/0",
        "::/128",
        "::1",
        "128.0.0.0/1",
    ] {
        let set = AddressSet::from([text.parse::<IpNetwork>().unwrap()]);
        assert!(!set.is_empty() && !set.freeze().is_empty(), "{text}");
    }
    assert!(!(!AddressSet::new()).freeze().is_empty());
    assert!(
        !FrozenSet::from_iter(&AddressSet::from(["::/0".parse::<IpNetwork>().unwrap()])).is_empty()
    );
}

#[test]
fn made_of_an_array() {
    let set = FrozenSet::<Ipv4Network>::from([addr(1)..=addr(2), addr(9)..=addr(9)]);
    let answers: Vec<bool> = (0..=10).map(|last| set.contains(addr(last))).collect();
    let expected: Vec<bool> = (0..=10).map(|last| [1, 2, 9].contains(&last)).collect();
    assert_eq!((answers, set.len()), (expected, 3));

    fn addr(last: u8) -> Ipv4Addr {
        Ipv4Addr::new(192, 0, 2, last)
    }
}

/// What is said of either form counts, of a mapped address only.
#[test]
fn mapped_addresses() {
    let mut random = Random(44);
    let mapped = 0xffff_0000_0000;
    for _ in 0..300 {
        let mut set = AddressSet::new();
        for _ in 0..random.below(4) {
            let number = random.number(Family::V4);
            set.insert(IpNetwork::net(
                Family::V4,
                number,
                32 - random.below(33) as u8,
            ));
            let number = random.number(Family::V4);
            set.insert(IpNetwork::net(
                Family::V6,
                mapped + number,
                128 - random.below(40) as u8,
            ));
        }
        let frozen = set.freeze();
        for _ in 0..200 {
            let number = random.number(Family::V4);
            let v4 = Ipv4Addr::from_bits(number as u32);
            let v6 = Ipv6Addr::from_bits(mapped + number);
            assert_eq!(IpAddr::V6(v6).to_canonical(), IpAddr::V4(v4));
            let either = set.contains(IpAddr::V4(v4)) || set.contains(IpAddr::V6(v6));
            assert_eq!(set.contains_mapped(IpAddr::V6(v6)), either);
            assert_eq!(frozen.contains_mapped(IpAddr::V6(v6)), either);
            // The addresses next to those that are mapped, and the IPv4-compatible ones, are none.
            for other in [
                number,
                0xfffe_0000_0000 + number,
                0x1_0000_0000_0000 + number,
                1 << 127 | mapped | number,
            ] {
                let other = IpAddr::V6(Ipv6Addr::from_bits(other));
                assert_eq!(set.contains_mapped(other), set.contains(other));
                assert_eq!(frozen.contains_mapped(other), set.contains(other));
            }
            assert_eq!(
                set.contains_mapped(IpAddr::V4(v4)),
                set.contains(IpAddr::V4(v4))
            );
            assert_eq!(
                frozen.contains_mapped(IpAddr::V4(v4)),
                set.contains(IpAddr::V4(v4))
            );
        }
    }
}
