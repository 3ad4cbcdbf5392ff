//! The questions that `Ipv4Network`, `Ipv6Network` and `IpNetwork` answer by hand, compared with the answers of the
//! core, for each prefix length, at both ends of the address space and of the network, and for random pairs.

use core::net::{IpAddr, Ipv4Addr, Ipv6Addr};
use fosibegan::{
    IpNetwork, IpNetworkError, Ipv4Network, Ipv6Network, NetworkSize, ip_mask_to_prefix,
    ipv4_mask_to_prefix, ipv6_mask_to_prefix,
};
use fosibegan_core as core_lib;

/// How many random pairs of each family are asked about: ten millions together.
const PAIRS: usize = 5_000_000;

/// Random numbers that are the same in each run.
struct Random(u64);

impl Random {
    fn word(&mut self) -> u64 {
        self.0 ^= self.0 << 13;
        self.0 ^= self.0 >> 7;
        self.0 ^= self.0 << 17;
        self.0.wrapping_mul(0x2545_f491_4f6c_dd1d)
    }
}

macro_rules! family {
    (
        $module:ident, $network:ident, $address:ident, $number:ident, $width:literal,
        $mask_to_prefix:ident
    ) => {
        mod $module {
            use super::*;

            type Core = core_lib::$network;
            type CoreAddress = core_lib::$address;

            fn network(number: $number, prefix: u8) -> $network {
                $network::new($address::from_bits(number), prefix).unwrap()
            }

            fn core_address(address: $address) -> CoreAddress {
                CoreAddress::from(address.to_bits())
            }

            fn core_network(network: $network) -> Core {
                Core::new_checked(core_address(network.ip()), network.prefix()).unwrap()
            }

            fn number(address: CoreAddress) -> $number {
                $number::from(address)
            }

            fn parts(network: Core) -> ($number, u8) {
                (number(network.ip()), network.prefix())
            }

            fn own_parts(network: $network) -> ($number, u8) {
                (network.ip().to_bits(), network.prefix())
            }

            /// The questions about a network alone.
            fn agree_on_one(asked: $network) {
                let core = core_network(asked);
                assert_eq!(asked.mask().to_bits(), number(core.mask()), "{asked}");
                assert_eq!(asked.network().to_bits(), number(core.network()), "{asked}");
                assert_eq!(
                    asked.broadcast().to_bits(),
                    number(core.broadcast()),
                    "{asked}"
                );
                assert_eq!(
                    asked.range(),
                    asked.network()..=asked.broadcast(),
                    "{asked}"
                );
                assert_eq!(asked.size(), core.size(), "{asked}");
                assert_eq!(
                    own_parts(asked.block()),
                    parts(core_lib::block(core)),
                    "{asked}"
                );
                assert_eq!(
                    asked.next().map(own_parts),
                    core_lib::following(core).map(parts),
                    "{asked}"
                );
                assert_eq!(
                    asked.previous().map(own_parts),
                    core_lib::preceding(core).map(parts),
                    "{asked}"
                );
            }

            /// The questions about a network and a number, a prefix length or an address.
            fn agree_on_more(asked: $network, n: $number, prefix: u8, address: $address) {
                let core = core_network(asked);
                assert_eq!(
                    asked.nth(n).map($address::to_bits),
                    core.nth(n).map(number),
                    "{asked} {n}"
                );
                assert_eq!(
                    asked.contains(address),
                    core.contains(core_address(address)),
                    "{asked} {address}"
                );
                assert_eq!(
                    asked.supernet(prefix).map(own_parts),
                    core_lib::supernet(core, prefix).map(parts),
                    "{asked} {prefix}"
                );
            }

            /// The questions about two networks.
            fn agree_on_two(asked: $network, other: $network) {
                let (core, other_core) = (core_network(asked), core_network(other));
                assert_eq!(
                    asked.is_subnet_of(other),
                    core.is_subnet_of(other_core),
                    "{asked} {other}"
                );
                assert_eq!(
                    asked.is_supernet_of(other),
                    core.is_supernet_of(other_core),
                    "{asked} {other}"
                );
                assert_eq!(
                    asked.overlaps(other),
                    core.overlaps(other_core),
                    "{asked} {other}"
                );
                assert_eq!(asked.cmp(&other), core.cmp(&other_core), "{asked} {other}");
                assert_eq!(asked == other, core == other_core, "{asked} {other}");
            }

            /// Both ends of the address space and their neighbours, some bits alone, and others.
            fn numbers() -> Vec<$number> {
                let mut random = Random(0x5eed);
                let mut numbers = vec![0, 1, 2, $number::MAX, $number::MAX - 1, $number::MAX - 2];
                numbers.extend((0..$width).map(|bit| 1 << bit));
                numbers.extend((0..$width).map(|bit| $number::MAX << bit));
                numbers.extend((0..20).map(|_| super::$module(&mut random)));
                numbers
            }

            /// The ends of a network and what is next to them.
            fn near(asked: $network) -> [$number; 6] {
                let (first, last) = (asked.network().to_bits(), asked.broadcast().to_bits());
                [
                    first,
                    last,
                    first.wrapping_sub(1),
                    first.wrapping_add(1),
                    last.wrapping_sub(1),
                    last.wrapping_add(1),
                ]
            }

            #[test]
            fn at_each_prefix_length() {
                for number in numbers() {
                    for prefix in 0..=$width {
                        let asked = network(number, prefix);
                        agree_on_one(asked);
                        let sizes = [
                            asked.size() - 1,
                            asked.size(),
                            asked.size().saturating_add(1),
                        ];
                        for n in [0, 1, $number::MAX - 1, $number::MAX]
                            .into_iter()
                            .chain(sizes)
                        {
                            agree_on_more(asked, n, prefix, asked.ip());
                        }
                        for near in near(asked).into_iter().chain([0, $number::MAX]) {
                            agree_on_more(asked, near, prefix, $address::from_bits(near));
                        }
                        for other_prefix in 0..=u8::MAX {
                            agree_on_more(asked, 0, other_prefix, asked.ip());
                        }
                    }
                }
            }

            #[test]
            fn of_two_at_each_prefix_length() {
                for number in [0, $number::MAX, super::$module(&mut Random(7))] {
                    for prefix in 0..=$width {
                        let asked = network(number, prefix);
                        let others = near(asked).into_iter().chain([0, $number::MAX, number]);
                        for other in others {
                            for other_prefix in 0..=$width {
                                agree_on_two(asked, network(other, other_prefix));
                                agree_on_two(network(other, other_prefix), asked);
                            }
                        }
                    }
                }
            }

            #[test]
            fn of_random_pairs() {
                let mut random = Random(0x1dea);
                for _ in 0..PAIRS {
                    let bits = super::$module(&mut random);
                    let word = random.word();
                    let [prefix, other_prefix, shared, ..] = word.to_le_bytes();
                    let (prefix, other_prefix) =
                        (prefix % ($width + 1), other_prefix % ($width + 1));
                    // The other address begins with some of the same bits.
                    let differing = super::$module(&mut random)
                        .checked_shr(u32::from(shared % ($width + 1)))
                        .unwrap_or(0);
                    let other = bits ^ differing;
                    let asked = network(bits, prefix);
                    agree_on_one(asked);
                    agree_on_more(asked, differing, other_prefix, $address::from_bits(other));
                    agree_on_two(asked, network(other, other_prefix));
                }
            }

            #[test]
            fn of_masks() {
                let mut random = Random(0xface);
                let masks =
                    (0..=$width).map(|prefix| network($number::MAX, prefix).mask().to_bits());
                let masks: Vec<$number> = masks.collect();
                let changed = masks
                    .iter()
                    .flat_map(|mask| (0..$width).map(move |bit| mask ^ 1 << bit));
                let others = (0..100_000).map(|_| super::$module(&mut random));
                for bits in masks.iter().copied().chain(changed).chain(others) {
                    let mask = $address::from_bits(bits);
                    let answer = $mask_to_prefix(mask);
                    let core = core_lib::$mask_to_prefix(core_address(mask));
                    assert_eq!(answer.clone().ok(), core.ok(), "{mask}");
                    assert_eq!(ip_mask_to_prefix(mask.into()), answer, "{mask}");
                    let ip = $address::from_bits(12_345);
                    let expected = answer.map(|prefix| network(12_345, prefix));
                    assert_eq!($network::with_netmask(ip, mask), expected, "{mask}");
                    assert_eq!(
                        IpNetwork::with_netmask(ip.into(), mask.into()),
                        expected.map(IpNetwork::from),
                        "{mask}"
                    );
                }
                for (prefix, mask) in (0..=$width).zip(masks) {
                    assert_eq!($mask_to_prefix($address::from_bits(mask)), Ok(prefix));
                }
            }

            #[test]
            fn of_prefix_lengths() {
                for address in [$address::from_bits(0), $address::from_bits($number::MAX)] {
                    for prefix in 0..=u8::MAX {
                        let core = Core::new_checked(core_address(address), prefix).map(parts);
                        let checked = $network::new_checked(address, prefix);
                        assert_eq!(checked.map(own_parts), core, "{prefix}");
                        let of_pair = $network::try_from((address, prefix));
                        assert_eq!($network::new(address, prefix), of_pair);
                        assert_eq!(of_pair, checked.ok_or(IpNetworkError::InvalidPrefix));
                        let either = IpNetwork::new_checked(address.into(), prefix);
                        assert_eq!(either, checked.map(IpNetwork::from));
                        assert_eq!(
                            IpNetwork::new(address.into(), prefix),
                            either.ok_or(IpNetworkError::InvalidPrefix)
                        );
                    }
                }
            }

            /// A network of either family answers as that of its own.
            #[test]
            fn of_either_family() {
                for number in [0, $number::MAX, super::$module(&mut Random(11))] {
                    for prefix in 0..=$width {
                        let own = network(number, prefix);
                        let either = IpNetwork::from(own);
                        assert_eq!(either.ip(), IpAddr::from(own.ip()));
                        assert_eq!(either.prefix(), own.prefix());
                        assert_eq!(either.mask(), IpAddr::from(own.mask()));
                        assert_eq!(either.network(), IpAddr::from(own.network()));
                        assert_eq!(either.broadcast(), IpAddr::from(own.broadcast()));
                        assert_eq!(either.range(), either.network()..=either.broadcast());
                        assert_eq!(either.size(), NetworkSize::from(own.size()));
                        assert_eq!(either.is_ipv4(), $width == 32);
                        assert_eq!(either.is_ipv6(), $width == 128);
                        assert_eq!(either.block(), IpNetwork::from(own.block()));
                        assert_eq!(either.next(), own.next().map(IpNetwork::from));
                        assert_eq!(either.previous(), own.previous().map(IpNetwork::from));
                        assert_eq!(either.to_string(), own.to_string());
                        for near in near(own).map($address::from_bits) {
                            let other = network(near.to_bits(), prefix / 2);
                            let other_either = IpNetwork::from(other);
                            assert_eq!(either.contains(near.into()), own.contains(near));
                            assert_eq!(either.is_subnet_of(other_either), own.is_subnet_of(other));
                            assert_eq!(other_either.is_subnet_of(either), other.is_subnet_of(own));
                            assert_eq!(
                                either.is_supernet_of(other_either),
                                own.is_supernet_of(other)
                            );
                            assert_eq!(either.overlaps(other_either), own.overlaps(other));
                            assert_eq!(either.cmp(&other_either), own.cmp(&other));
                            let n = near.to_bits();
                            assert_eq!(
                                either.nth(u128::from(n)),
                                own.nth(n).map(IpAddr::from),
                                "{n}"
                            );
                        }
                        for other in 0..=u8::MAX {
                            let supernet = own.supernet(other).map(IpNetwork::from);
                            assert_eq!(either.supernet(other), supernet);
                        }
                    }
                }
            }
        }
    };
}

/// A random number of an IPv4 address.
fn v4(random: &mut Random) -> u32 {
    random.word() as u32
}

/// A random number of an IPv6 address.
fn v6(random: &mut Random) -> u128 {
    u128::from(random.word()) << 64 | u128::from(random.word())
}

family!(v4, Ipv4Network, Ipv4Addr, u32, 32, ipv4_mask_to_prefix);
family!(v6, Ipv6Network, Ipv6Addr, u128, 128, ipv6_mask_to_prefix);

/// IPv4 addresses have no number past 32 bits.
#[test]
fn the_members_of_either_family_by_large_numbers() {
    let network: IpNetwork = "10.0.0.0/8".parse().unwrap();
    for n in [1 << 32, (1 << 32) + 1, 1 << 64, u128::MAX] {
        assert_eq!(network.nth(n), None, "{n}");
    }
}

/// Networks of two families have nothing in common, and come in the order of their families.
#[test]
fn of_two_families() {
    for (v4, v6) in [
        ("0.0.0.0/0", "::/0"),
        ("0.0.0.0/32", "::/128"),
        ("255.0.0.0/8", "::/0"),
    ] {
        let (v4, v6): (IpNetwork, IpNetwork) = (v4.parse().unwrap(), v6.parse().unwrap());
        for (one, other) in [(v4, v6), (v6, v4)] {
            assert!(!one.contains(other.ip()));
            assert!(!one.contains(other.network()));
            assert!(!one.is_subnet_of(other));
            assert!(!one.is_supernet_of(other));
            assert!(!one.overlaps(other));
            assert_ne!(one, other);
        }
        assert!(v4 < v6);
    }
}

/// A mapped address is a member in either of its forms, and an IPv4 address in its own alone.
#[test]
fn of_mapped_addresses() {
    let rows = [
        ("10.0.0.0/8", "10.1.2.3", true),
        ("10.0.0.0/8", "::ffff:10.1.2.3", true),
        ("10.0.0.0/8", "::ffff:11.1.2.3", false),
        ("10.0.0.0/8", "::10.1.2.3", false),
        ("10.0.0.0/8", "::fffe:a01:203", false),
        ("0.0.0.0/0", "::ffff:255.255.255.255", true),
        ("0.0.0.0/0", "::ffff:0.0.0.0", true),
        ("0.0.0.0/0", "::1:0:0:0", false),
        ("0.0.0.0/0", "::fffe:ffff:ffff", false),
        ("::ffff:10.0.0.0/104", "::ffff:10.1.2.3", true),
        ("::ffff:10.0.0.0/104", "::ffff:11.1.2.3", false),
        ("::ffff:10.0.0.0/104", "10.1.2.3", false),
        ("::/0", "::ffff:10.1.2.3", true),
        ("::/0", "10.1.2.3", false),
        ("2001:db8::/32", "2001:db8::1", true),
        ("2001:db8::/32", "2001:db9::1", false),
    ];
    for (network, address, is_member) in rows {
        let network: IpNetwork = network.parse().unwrap();
        let address: IpAddr = address.parse().unwrap();
        assert_eq!(
            network.contains_mapped(address),
            is_member,
            "{network} {address}"
        );
    }
}
