//! Every answer compared with `std::net` and plain arithmetic, on random texts and networks, and on
//! mutated ones. `IPNETWORK_ROWS` is how many of each, a million where it is not set;
//! `IPNETWORK_SEED` chooses others.

use fosibegan_core::ipnetwork_addr::{AddrParseError, IpAddr, Ipv4Addr, Ipv6Addr};
use fosibegan_core::plain_std::alloc::Global;
use fosibegan_core::plain_std::vec::Vec as Memory;
use fosibegan_core::{
    AddressIndex, AddressSet, BlockIndex, CidrFault, IpAddressSet, IpNetwork, IpNetworkError,
    Ipv4Network, Ipv6Network, NetworkSize, PrefixTable, RouteIndex, WrongFamily,
    aggregate_in_place, cause, ip_mask_to_prefix, ipv4_mask_to_prefix, ipv6_mask_to_prefix,
    subnet_at,
};
use std::net;

mod common;

use common::{Cause, Random, host, mask, near, network_v4, network_v6, random_text, rows, seed};

fn fault(cause: Cause) -> CidrFault {
    match cause {
        Cause::Format => CidrFault::Format,
        Cause::Address => CidrFault::Addr,
        Cause::Prefix => CidrFault::Prefix,
    }
}

fn four(address: net::Ipv4Addr) -> Ipv4Addr {
    Ipv4Addr::from(u32::from(address))
}

fn six(address: net::Ipv6Addr) -> Ipv6Addr {
    Ipv6Addr::from(u128::from(address))
}

fn either(address: net::IpAddr) -> IpAddr {
    match address {
        net::IpAddr::V4(address) => IpAddr::V4(four(address)),
        net::IpAddr::V6(address) => IpAddr::V6(six(address)),
    }
}

/// A list in the memory that the library takes.
fn list<T: Copy>(items: &[T]) -> Memory<T> {
    Memory::from_slice(Global, items).unwrap()
}

/// Sees that a network of either family is read and printed as this text of its parts.
fn same_network(read: IpNetwork, wanted: IpNetwork, text: String) {
    assert_eq!(read, wanted, "{text}");
    assert_eq!(read.to_string(), text);
    assert_eq!(read.canonical().as_str(), text);
    assert_eq!(read.to_text(Global).unwrap().as_str(), text);
}

fn same_texts(text: &[u8], seen: &mut [usize; 3]) {
    let shown = String::from_utf8_lossy(text);
    let v4 = network_v4(text).map_err(fault);
    let v6 = network_v6(text).map_err(fault);
    let read = Ipv4Network::read_bytes(text).map(|network| (network.ip(), network.prefix()));
    assert_eq!(
        read,
        v4.map(|(address, prefix)| (four(address), prefix)),
        "{shown}"
    );
    let read = Ipv6Network::read_bytes(text).map(|network| (network.ip(), network.prefix()));
    assert_eq!(
        read,
        v6.map(|(address, prefix)| (six(address), prefix)),
        "{shown}"
    );
    let read = IpNetwork::read_bytes(text);
    match (v4, v6) {
        (Ok((address, prefix)), _) => {
            seen[0] += 1;
            let wanted = IpNetwork::V4(Ipv4Network::new(four(address), prefix).unwrap());
            same_network(read.unwrap(), wanted, format!("{address}/{prefix}"));
            assert_eq!(cause(text), None, "{shown}");
        }
        (_, Ok((address, prefix))) => {
            seen[1] += 1;
            let wanted = IpNetwork::V6(Ipv6Network::new(six(address), prefix).unwrap());
            same_network(read.unwrap(), wanted, format!("{address}/{prefix}"));
            assert_eq!(cause(text), None, "{shown}");
        }
        (Err(four), Err(six)) => {
            seen[2] += 1;
            let wanted = match (four, six) {
                (CidrFault::Format, _) => CidrFault::Format,
                (CidrFault::Prefix, _) | (_, CidrFault::Prefix) => CidrFault::Prefix,
                _ => CidrFault::Addr,
            };
            assert_eq!(read, Err(CidrFault::Addr), "{shown}");
            assert_eq!(cause(text), Some(wanted), "{shown}");
        }
    }
}

#[test]
fn texts() {
    let mut random = Random(seed(0x1234_5678_9abc_def1));
    let mut seen = [0; 3];
    for row in 0..rows() {
        let text = random_text(&mut random, row % 2 == 1);
        same_texts(&text, &mut seen);
    }
    println!(
        "texts: {} IPv4, {} IPv6, {} refused",
        seen[0], seen[1], seen[2]
    );
    assert!(
        seen.iter().all(|count| *count * 20 > rows()),
        "too few of a kind: {seen:?}"
    );
}

macro_rules! questions {
    (
        $test:ident, $network:ident, $address:ident, $number:ident, $width:literal, $seed:literal,
        $either:ident, $mask_to_prefix:ident
    ) => {
        mod $test {
            use super::*;

            fn at(number: u128) -> $address {
                $address::from(number as $number)
            }

            fn make(number: u128, prefix: u8) -> $network {
                $network::new(at(number), prefix).unwrap()
            }

            /// A network by itself, and as one of either family.
            fn alone(a: u128, p: u8) {
                let (one, hosts) = (make(a, p), host($width, p));
                let (low, high) = (a & !hosts, a | hosts);
                let ones = at(mask($width, u32::from(p)));
                assert_eq!((one.ip(), one.prefix()), (at(a), p));
                assert_eq!(
                    (one.network(), one.broadcast()),
                    (at(low), at(high)),
                    "{one}"
                );
                assert_eq!(one.mask(), ones, "{one}");
                assert_eq!($mask_to_prefix(ones), Ok(p));
                assert_eq!($network::with_netmask(at(a), ones), Ok(one));
                assert_eq!($network::block(at(a), p), Some(make(low, p)));
                // At prefix length 0 it is one too small.
                assert_eq!(one.size(), (hosts as $number).saturating_add(1), "{one}");
                assert_eq!(one.iter().next(), Some(at(low)), "{one}");
                let either = IpNetwork::from(one);
                assert_eq!(either, IpNetwork::new(IpAddr::$either(at(a)), p).unwrap());
                assert_eq!((either.ip(), either.prefix()), (IpAddr::$either(at(a)), p));
                assert_eq!(either.network(), IpAddr::$either(at(low)), "{one}");
                assert_eq!(either.broadcast(), IpAddr::$either(at(high)), "{one}");
                assert_eq!(either.mask(), IpAddr::$either(ones), "{one}");
                assert_eq!(either.size(), NetworkSize::$either(one.size()), "{one}");
                assert_eq!(ip_mask_to_prefix(either.mask()), Ok(p));
                assert_eq!($network::try_from(either), Ok(one));
            }

            /// Whether a number is a mask, asked of it.
            fn masks(b: u128) {
                let wanted = (0..=$width).find(|n| mask($width, *n) == b);
                let wanted = wanted.map(|n| n as u8).ok_or(IpNetworkError::InvalidPrefix);
                assert_eq!($mask_to_prefix(at(b)), wanted, "{b:x}");
            }

            /// Whether there is a member of this number.
            fn is_member(a: u128, p: u8, n: u128) -> bool {
                let (one, hosts) = (make(a, p), host($width, p));
                let size = u128::from((hosts as $number).saturating_add(1));
                let member = (n < size).then(|| at((a & !hosts) + n));
                assert_eq!(one.nth(n as $number), member, "{one} {n}");
                member.is_some()
            }

            /// Whether the first network has the address of the second, lies in it, and meets it.
            fn together(a: u128, p: u8, b: u128, q: u8) -> [bool; 3] {
                let (one, other) = (make(a, p), make(b, q));
                let (low, high) = (a & !host($width, p), a | host($width, p));
                let (from, to) = (b & !host($width, q), b | host($width, q));
                let has = low <= b && b <= high;
                assert_eq!(one.contains(at(b)), has, "{one} {b:x}");
                let (either, second) = (IpNetwork::from(one), IpNetwork::from(other));
                assert_eq!(either.contains(IpAddr::$either(at(b))), has, "{one} {b:x}");
                let (inside, meet) = (from <= low && high <= to, low <= to && from <= high);
                assert_eq!(one.is_subnet_of(other), inside, "{one} {other}");
                assert_eq!(other.is_supernet_of(one), inside, "{one} {other}");
                assert_eq!(one.overlaps(other), meet, "{one} {other}");
                assert_eq!(either.is_subnet_of(second), inside, "{one} {other}");
                assert_eq!(second.is_supernet_of(either), inside, "{one} {other}");
                assert_eq!(either.overlaps(second), meet, "{one} {other}");
                assert_eq!(one.cmp(&other), (a, p).cmp(&(b, q)), "{one} {other}");
                assert_eq!(either.cmp(&second), (a, p).cmp(&(b, q)), "{one} {other}");
                assert_eq!(one.cmp(&make(a, q)), p.cmp(&q), "{one} {q}");
                [has, inside, meet]
            }

            /// A set of two networks, asked for an address and for a network.
            fn of_two(a: u128, p: u8, b: u128, q: u8, c: u128) {
                let (one, other) = (make(a, p), make(b, q));
                let set = AddressSet::from_networks(list(&[other, one]));
                let has = one.contains(at(c)) || other.contains(at(c));
                assert_eq!(set.contains(at(c)), has, "{one} {other} {c:x}");
                assert!(set.covers(one) && set.overlaps(other));
                let index = AddressIndex::from_set(Global, &set).unwrap();
                let (mut answers, column) = ([false; 3], [at(c), at(a), at(c)]);
                index.contains_each(&column, &mut answers);
                assert_eq!(answers, [has, true, has], "{one} {other} {c:x}");
            }

            #[test]
            fn answers() {
                let mut random = Random(seed($seed));
                let mut seen = [[0usize; 2]; 4];
                for row in 0..rows() {
                    let a = near(&mut random, $width, 0);
                    let b = near(&mut random, $width, a);
                    let p = random.below($width + 1) as u8;
                    let q = random.below($width + 1) as u8;
                    let n = near(&mut random, $width, host($width, p));
                    alone(a, p);
                    masks(b);
                    let [has, inside, meet] = together(a, p, b, q);
                    if row % 16 == 0 {
                        of_two(a, p, b, q, near(&mut random, $width, b));
                    }
                    let truths = [has, inside, meet, is_member(a, p, n)];
                    for (row, truth) in seen.iter_mut().zip(truths) {
                        row[usize::from(truth)] += 1;
                    }
                }
                println!(
                    "{}: no and yes of contains, subnet, overlap, member: {seen:?}",
                    stringify!($network)
                );
                assert!(
                    seen.as_flattened().iter().all(|count| *count * 50 > rows()),
                    "too few of a kind: {seen:?}"
                );
            }
        }
    };
}

questions!(
    questions_v4,
    Ipv4Network,
    Ipv4Addr,
    u32,
    32,
    0x0f1e_2d3c_4b5a_6977,
    V4,
    ipv4_mask_to_prefix
);
questions!(
    questions_v6,
    Ipv6Network,
    Ipv6Addr,
    u128,
    128,
    0x7b31_00c5_9e21_4d03,
    V6,
    ipv6_mask_to_prefix
);

#[test]
fn past_the_width_and_other_family() {
    let (here, here6) = (
        four(net::Ipv4Addr::LOCALHOST),
        six(net::Ipv6Addr::LOCALHOST),
    );
    for prefix in 0..=255 {
        assert_eq!(Ipv4Network::new(here, prefix).is_ok(), prefix <= 32);
        assert_eq!(
            Ipv4Network::new_checked(here, prefix).is_some(),
            prefix <= 32
        );
        assert_eq!(Ipv6Network::new(here6, prefix).is_ok(), prefix <= 128);
        assert_eq!(
            Ipv6Network::new_checked(here6, prefix).is_some(),
            prefix <= 128
        );
    }
    let all: IpNetwork = "0.0.0.0/0".parse().unwrap();
    assert!(all.contains(IpAddr::V4(here)));
    assert!(!all.contains(IpAddr::V6(six(net::Ipv4Addr::LOCALHOST.to_ipv6_mapped()))));
    assert!(all < "::/0".parse().unwrap());
}

#[test]
fn families_apart() {
    let v4 = IpNetwork::from(IpAddr::V4(four(net::Ipv4Addr::LOCALHOST)));
    let v6 = IpNetwork::from(IpAddr::V6(six(net::Ipv6Addr::LOCALHOST)));
    assert_eq!(
        (v4.to_string(), v6.to_string()),
        ("127.0.0.1/32".into(), "::1/128".into())
    );
    let all: IpNetwork = "::/0".parse().unwrap();
    assert!(v6.is_subnet_of(all) && v6.overlaps(all));
    assert!(!v4.is_subnet_of(all) && !v4.overlaps(all) && !all.is_subnet_of(v4));
    assert_eq!(Ipv6Network::try_from(v4), Err(WrongFamily));
    assert_eq!(Ipv4Network::try_from(v6), Err(WrongFamily));
    let past = IpNetwork::new(IpAddr::V4(four(net::Ipv4Addr::LOCALHOST)), 33);
    assert_eq!(past, Err(IpNetworkError::InvalidPrefix));
}

macro_rules! aggregates {
    ($test:ident, $network:ident, $address:ident, $number:ident, $width:literal, $base:literal) => {
        /// Of lists within 256 addresses: the aggregate has their addresses, ascends, and has no
        /// halves of one block.
        #[test]
        fn $test() {
            let mut state = 20_u32;
            let mut random = |bound: u32| {
                state = state.wrapping_mul(1_664_525).wrapping_add(1_013_904_223);
                (state >> 16) % bound
            };
            let base = $number::from($base.parse::<$address>().unwrap());
            for round in 0..2000 {
                let given: Vec<_> = (0..round % 9)
                    .map(|_| {
                        let address = $address::from(base + $number::from(random(256)));
                        $network::new(address, ($width - random(9)) as u8).unwrap()
                    })
                    .collect();
                let mut memory = given.clone();
                let count = aggregate_in_place(&mut memory);
                let blocks = &memory[..count];
                for offset in 0..=255 {
                    let address = $address::from(base + $number::from(offset as u8));
                    let has = |list: &[$network]| list.iter().any(|each| each.contains(address));
                    assert_eq!(has(blocks), has(&given), "{given:?}");
                }
                assert!(blocks.iter().all(|each| each.ip() == each.network()));
                for pair in blocks.windows(2) {
                    assert!(pair[0].broadcast() < pair[1].network(), "{given:?}");
                    let around = $network::new(pair[0].ip(), pair[0].prefix() - 1).unwrap();
                    assert!(
                        pair[0].prefix() != pair[1].prefix() || !around.contains(pair[1].ip()),
                        "{given:?}"
                    );
                }
                let set = AddressSet::from_networks(list(&given));
                assert_eq!(set.blocks(), blocks, "{given:?}");
            }
        }
    };
}

aggregates!(aggregates_v4, Ipv4Network, Ipv4Addr, u32, 32, "192.0.2.0");
aggregates!(
    aggregates_v6,
    Ipv6Network,
    Ipv6Addr,
    u128,
    128,
    "2001:db8::"
);

#[test]
fn members_in_order() {
    let four: Ipv4Network = "192.168.122.1/30".parse().unwrap();
    let all: Vec<String> = four.into_iter().map(|each| each.to_string()).collect();
    let wanted = [
        "192.168.122.0",
        "192.168.122.1",
        "192.168.122.2",
        "192.168.122.3",
    ];
    assert_eq!(all, wanted);
    assert_eq!(four.iter().nth(2), four.nth(2));
    let last: Ipv6Network = "ffff:ffff:ffff:ffff:ffff:ffff:ffff:ffff/127"
        .parse()
        .unwrap();
    assert_eq!(
        last.iter().map(u128::from).collect::<Vec<_>>(),
        [u128::MAX - 1, u128::MAX]
    );
    for text in ["10.0.0.7/30", "2001:db8::/126"] {
        let network: IpNetwork = text.parse().unwrap();
        let members: Vec<IpAddr> = network.into_iter().collect();
        assert_eq!(members.len() as u128, u128::from(network.size()));
        assert_eq!(
            (members[0], members[3]),
            (network.network(), network.broadcast())
        );
        assert_eq!(IpNetwork::new(network.ip(), network.prefix()), Ok(network));
        let past = IpNetwork::new(network.ip(), 129);
        assert_eq!(past, Err(IpNetworkError::InvalidPrefix));
        assert_eq!(ip_mask_to_prefix(network.mask()), Ok(network.prefix()));
    }
    let all: IpNetwork = "::/0".parse().unwrap();
    assert_eq!(all.size(), NetworkSize::V6(u128::MAX));
}

#[test]
fn sets_of_the_same_addresses() {
    let networks: [Ipv4Network; 3] =
        ["10.128.0.0/9", "10.0.0.0/9", "10.1.9.32/16"].map(|text| text.parse().unwrap());
    let whole: [Ipv4Network; 1] = ["10.0.0.0/8".parse().unwrap()];
    let set = AddressSet::from_networks(list(&networks));
    assert!(set == AddressSet::from_networks(list(&whole)));
    assert_eq!(set.blocks(), whole);
    assert!(set.contains(Ipv4Addr::new(10, 255, 0, 0)));
    assert!(!set.contains(Ipv4Addr::new(11, 0, 0, 0)));
    let none = AddressSet::<Ipv6Network>::from_networks(list(&[]));
    assert!(none.is_empty() && !none.contains(six(net::Ipv6Addr::LOCALHOST)));
}

/// A random set of both families within 256 addresses, and which of these it has.
fn random_set(
    state: &mut u32,
    fours: &mut [Ipv4Network; 8],
    sixes: &mut [Ipv6Network; 8],
) -> [bool; 256] {
    let mut has = [false; 256];
    for (four, six) in fours.iter_mut().zip(sixes) {
        *state = state.wrapping_mul(1_103_515_245).wrapping_add(12_345);
        let (host, bits) = ((*state >> 16) as u8, ((*state >> 24) % 7) as u8);
        *four = Ipv4Network::new(Ipv4Addr::new(192, 0, 2, host), 32 - bits).unwrap();
        *six = Ipv6Network::new(Ipv6Addr::from(u128::from(host)), 128 - bits).unwrap();
        let low = usize::from(host >> bits << bits);
        has[low..low + (1 << bits)].fill(true);
    }
    has
}

/// The union, the intersection or the difference of two sets.
macro_rules! operation {
    ($round:ident, $a:ident, $b:ident) => {
        match $round % 3 {
            0 => $a.union(&$b, list(&[])).unwrap(),
            1 => $a.intersection(&$b).into_set(list(&[])).unwrap(),
            _ => $a.difference(&$b).into_set(list(&[])).unwrap(),
        }
    };
}

#[test]
fn operations_on_sets() {
    let blank: ([Ipv4Network; 8], [Ipv6Network; 8]) =
        (["0.0.0.0".parse().unwrap(); 8], ["::".parse().unwrap(); 8]);
    let mut state = 7;
    for round in 0..300 {
        let ((mut a, mut a6), (mut b, mut b6)) = (blank, blank);
        let has_a = random_set(&mut state, &mut a, &mut a6);
        let has_b = random_set(&mut state, &mut b, &mut b6);
        let [a, b] = [a, b].map(|networks| AddressSet::from_networks(list(&networks)));
        let [a6, b6] = [a6, b6].map(|networks| AddressSet::from_networks(list(&networks)));
        let (made, made6) = (operation!(round, a, b), operation!(round, a6, b6));
        let wanted: Vec<bool> = (0..256)
            .map(|host| match round % 3 {
                0 => has_a[host] || has_b[host],
                1 => has_a[host] && has_b[host],
                _ => has_a[host] && !has_b[host],
            })
            .collect();
        let fours: [_; 256] = std::array::from_fn(|host| Ipv4Addr::new(192, 0, 2, host as u8));
        let sixes: [_; 256] = std::array::from_fn(|host| Ipv6Addr::from(host as u128));
        let index = AddressIndex::from_set(Global, &made).unwrap();
        let index6 = AddressIndex::from_set(Global, &made6).unwrap();
        let (mut answers, mut answers6) = ([false; 256], [false; 256]);
        index.contains_each(&fours, &mut answers);
        index6.contains_each(&sixes, &mut answers6);
        assert_eq!(
            (answers.as_slice(), answers6.as_slice()),
            (&wanted[..], &wanted[..])
        );
        for host in 0..256 {
            assert_eq!(made.contains(fours[host]), wanted[host]);
            assert_eq!(made6.contains(sixes[host]), wanted[host]);
            assert_eq!(index.contains(fours[host]), wanted[host]);
            assert_eq!(index6.contains(sixes[host]), wanted[host]);
        }
        assert!(AddressSet::from_blocks(list(made.blocks())).ok().unwrap() == made);
        assert!(AddressSet::from_blocks(list(made6.blocks())).ok().unwrap() == made6);
        assert!(AddressSet::from_networks(list(made.blocks())) == made);
        assert!(AddressSet::from_networks(list(made6.blocks())) == made6);
        let count = wanted.iter().filter(|has| **has).count() as u128;
        assert_eq!(made.address_count(), count.into());
        assert_eq!(made6.address_count(), count.into());
        let both = IpAddressSet::from_parts(made, made6);
        assert!((0..256).all(|host| both.contains(IpAddr::V4(fours[host])) == wanted[host]));
        assert!((0..256).all(|host| both.contains(IpAddr::V6(sixes[host])) == wanted[host]));
    }
}

/// The table of networks, each with its place, and of those of one block the last.
macro_rules! table {
    ($networks:expr) => {{
        let mut table = PrefixTable::new(Global);
        for (place, network) in $networks.iter().enumerate() {
            table.insert(*network, place).unwrap();
        }
        table
    }};
}

/// Asks a table, and the indexes over it and over its blocks, for an address.
macro_rules! asked {
    ($networks:expr, $routes:expr, $blocks:expr, $address:expr) => {{
        let having = $networks
            .iter()
            .enumerate()
            .filter(|each| each.1.contains($address));
        let wanted = having.max_by_key(|(place, network)| (network.prefix(), *place));
        let wanted = wanted.map(|(place, network)| (fosibegan_core::block(*network), place));
        assert_eq!($routes.table().lookup($address), wanted);
        assert_eq!($routes.lookup($address), wanted);
        assert_eq!(
            $blocks.lookup($address),
            wanted.map(|(block, _)| (block, ()))
        );
        wanted.map(|(_, place)| place)
    }};
}

/// Tables of random networks within 256 addresses: of each address the last network of the greatest
/// prefix length that has it.
#[test]
fn tables() {
    let mut random = Random(seed(31));
    for count in 0..200 {
        let (mut fours, mut sixes) = (Vec::new(), Vec::new());
        for _ in 0..count % 40 {
            let (host, bits) = (random.below(256) as u8, random.below(9) as u8);
            fours.push(Ipv4Network::new(Ipv4Addr::new(192, 0, 2, host), 32 - bits).unwrap());
            sixes.push(Ipv6Network::new(Ipv6Addr::from(u128::from(host)), 128 - bits).unwrap());
        }
        let routes = RouteIndex::from_table(Global, table!(fours)).unwrap();
        let routes6 = RouteIndex::from_table(Global, table!(sixes)).unwrap();
        let blocks = BlockIndex::from_networks(Global, &fours, ()).unwrap();
        let blocks6 = BlockIndex::from_networks(Global, &sixes, ()).unwrap();
        let listed: Vec<Ipv4Network> = routes.table().iter().map(|entry| entry.0).collect();
        assert!(listed.iter().all(|block| block.ip() == block.network()));
        assert_eq!(listed.len(), routes.table().len());
        for host in 0..256 {
            let found = asked!(fours, routes, blocks, Ipv4Addr::new(192, 0, 2, host as u8));
            let found6 = asked!(sixes, routes6, blocks6, Ipv6Addr::from(host as u128));
            assert_eq!(found, found6);
        }
    }
}

#[test]
fn sets_by_their_blocks() {
    let fours = ["10.0.0.0/9", "10.128.0.0/9"].map(|text| text.parse::<Ipv4Network>().unwrap());
    let sixes = ["2001:db8::1/32"].map(|text| text.parse::<Ipv6Network>().unwrap());
    assert!(AddressSet::from_blocks(list(&fours)).is_err());
    assert!(AddressSet::from_blocks(list(&sixes)).is_err());
    let half = |blocks: &[Ipv4Network]| AddressSet::from_blocks(list(blocks)).ok().unwrap();
    let (low, high) = (half(&fours[..1]), half(&fours[1..]));
    let whole: Ipv4Network = "10.0.0.0/8".parse().unwrap();
    assert_eq!(low.union(&high, list(&[])).unwrap().blocks(), [whole]);
    assert_eq!(low.intersection(&high).next(), None);
    assert_eq!(subnet_at(whole, 9, 1), Some(fours[1]));
    assert_eq!(
        (subnet_at(whole, 9, 2), subnet_at(whole, 7, 0)),
        (None, None)
    );
    let wide: Ipv6Network = "2001:db8::/32".parse().unwrap();
    let last = "2001:db8:ffff::/48".parse().unwrap();
    assert_eq!(subnet_at(wide, 48, 0xffff), Some(last));
    assert_eq!(
        (subnet_at(wide, 48, 1 << 16), subnet_at(wide, 129, 0)),
        (None, None)
    );
}

/// Random addresses, each printed as std::net prints it and read again.
#[test]
fn addresses_printed_and_read() {
    let mut random = Random(seed(0x5c1d_93e6_70ab_428f));
    for _ in 0..rows() {
        let address = match random.below(2) {
            0 => net::IpAddr::V4(random.v4()),
            _ => net::IpAddr::V6(random.v6()),
        };
        let (own, text) = (either(address), address.to_string());
        assert_eq!(own.canonical().as_str(), text);
        assert_eq!(own.to_string(), text);
        assert_eq!(IpAddr::read_bytes(text.as_bytes()), Ok(own));
    }
    let most = "1111:2222:3333:4444:5555:6666:7777:8888/100";
    assert_eq!(most.parse::<IpNetwork>().unwrap().to_string(), most);
}

#[test]
fn addresses_alone() {
    for text in [
        "10.1.9.32",
        "2001:DB8::1",
        "::ffff:192.0.2.9",
        "1:2:3:4:5:6:7::",
    ] {
        let wanted = either(text.parse().unwrap());
        assert_eq!(IpAddr::read_bytes(text.as_bytes()), Ok(wanted));
    }
    for text in [
        "",
        "10.1.9",
        "10.1.9.32/32",
        "fe80::1%eth0",
        "01.2.3.4",
        "::\0",
    ] {
        assert_eq!(
            IpAddr::read_bytes(text.as_bytes()),
            Err(AddrParseError::Ip),
            "{text:?}"
        );
    }
}
