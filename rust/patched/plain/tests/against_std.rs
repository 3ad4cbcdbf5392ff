//! Every answer compared with `std::net` and plain arithmetic, on random texts and networks, and on
//! mutated ones. `IPNETWORK_ROWS` is how many of each, a million where it is not set;
//! `IPNETWORK_SEED` chooses others.

use ipnetwork::{
    ip_mask_to_prefix, ipv4_mask_to_prefix, ipv6_mask_to_prefix, IpNetwork, IpNetworkError,
    Ipv4Network, Ipv6Network, NetworkSize,
};
use std::fmt::Display;
use std::hash::{DefaultHasher, Hash, Hasher};
use std::net::{IpAddr, Ipv4Addr, Ipv6Addr};
use std::str::FromStr;

#[path = "../../../fosibegan_core/tests/common/mod.rs"]
mod common;

use common::{host, mask, near, network_v4, network_v6, random_text, rows, seed, Cause, Random};

/// What the text of a family has to give: a network with these parts, or this error.
fn wanted<Address: FromStr<Err = std::net::AddrParseError>>(
    read: Result<(Address, u8), Cause>,
    text: &str,
) -> Result<(Address, u8), IpNetworkError> {
    read.map_err(|cause| match cause {
        Cause::Format => {
            IpNetworkError::InvalidCidrFormat(format!("CIDR must contain a single '/': {text}"))
        }
        Cause::Address => match "".parse::<Address>() {
            Ok(_) => unreachable!("the empty text is no address"),
            Err(error) => IpNetworkError::from(error),
        },
        Cause::Prefix => IpNetworkError::InvalidPrefix,
    })
}

/// Sees that a network is printed as this text, wherever the formatter puts it.
fn printed(network: impl Display, text: &str) {
    assert_eq!(network.to_string(), text);
    assert_eq!(format!("{network:^46}|"), format!("{text:^46}|"));
    assert_eq!(format!("{network:<20}|"), format!("{text:<20}|"));
    assert_eq!(format!("{network:_>20.7}"), format!("{text:_>20.7}"));
}

fn same_texts(text: &str, seen: &mut [usize; 3]) {
    let v4 = wanted(network_v4(text.as_bytes()), text);
    let v6 = wanted(network_v6(text.as_bytes()), text);
    let read = text.parse::<Ipv4Network>();
    assert_eq!(read, Ipv4Network::try_from(text));
    assert_eq!(read.map(|n| (n.ip(), n.prefix())), v4, "{text}");
    let read = text.parse::<Ipv6Network>();
    assert_eq!(read, Ipv6Network::try_from(text));
    assert_eq!(read.map(|n| (n.ip(), n.prefix())), v6, "{text}");
    let either = text.parse::<IpNetwork>();
    assert_eq!(either, IpNetwork::try_from(text));
    let (kind, wanted) = match (v4, v6) {
        (Ok((address, prefix)), _) => (0, Ok((IpAddr::V4(address), prefix))),
        (_, Ok((address, prefix))) => (1, Ok((IpAddr::V6(address), prefix))),
        _ => (2, Err(IpNetworkError::InvalidAddr(text.to_string()))),
    };
    seen[kind] += 1;
    match &either {
        Ok(network) => printed(network, &format!("{}/{}", network.ip(), network.prefix())),
        Err(error) => assert_eq!(error.to_string(), format!("invalid address: {text}")),
    }
    assert_eq!(either.map(|n| (n.ip(), n.prefix())), wanted, "{text}");
}

#[test]
fn texts() {
    let mut random = Random(seed(0x1234_5678_9abc_def1));
    let mut seen = [0; 3];
    for row in 0..rows() {
        let text = random_text(&mut random, row % 2 == 1);
        same_texts(&String::from_utf8_lossy(&text), &mut seen);
    }
    println!("texts: IPv4, IPv6, refused: {seen:?}");
    assert!(
        seen.iter().all(|count| *count * 20 > rows()),
        "too few of a kind: {seen:?}"
    );
}

fn hash(value: impl Hash) -> u64 {
    let mut hasher = DefaultHasher::new();
    value.hash(&mut hasher);
    hasher.finish()
}

macro_rules! questions {
    (
        $test:ident, $network:ident, $address:ident, $number:ident, $width:literal,
        $mask_to_prefix:ident, $either:ident, $seed:literal
    ) => {
        mod $test {
            use super::*;

            fn at(number: u128) -> $address {
                $address::from(number as $number)
            }

            fn make(number: u128, prefix: u8) -> $network {
                $network::new(at(number), prefix).unwrap()
            }

            /// A network by itself.
            fn alone(a: u128, p: u8) {
                let (one, hosts) = (make(a, p), host($width, p));
                let ones = at(mask($width, u32::from(p)));
                assert_eq!((one.ip(), one.prefix()), (at(a), p));
                assert_eq!($network::new_checked(at(a), p), Some(one));
                assert_eq!($network::with_netmask(at(a), ones), Ok(one));
                assert_eq!(one.network(), at(a & !hosts), "{one}");
                assert_eq!(one.broadcast(), at(a | hosts), "{one}");
                assert_eq!(one.mask(), ones, "{one}");
                assert_eq!($mask_to_prefix(ones), Ok(p));
                assert_eq!(one.size(), (hosts as $number).saturating_add(1), "{one}");
                assert_eq!(hash(one), hash((at(a), p)));
                assert_eq!(format!("{one:?}"), format!("{}/{p}", at(a)));
            }

            /// A network as one of either family, beside itself.
            fn either(one: $network, b: u128, skip: usize) {
                let either = IpNetwork::from(one);
                assert_eq!(either, IpNetwork::$either(one));
                let (ip, mask) = (IpAddr::$either(one.ip()), IpAddr::$either(one.mask()));
                assert_eq!((either.ip(), either.prefix()), (ip, one.prefix()));
                assert_eq!(IpNetwork::new(ip, one.prefix()), Ok(either));
                assert_eq!(IpNetwork::with_netmask(ip, mask), Ok(either));
                assert_eq!(either.mask(), mask);
                assert_eq!(ip_mask_to_prefix(mask), Ok(one.prefix()));
                assert_eq!(either.network(), IpAddr::$either(one.network()));
                assert_eq!(either.broadcast(), IpAddr::$either(one.broadcast()));
                let has = one.contains(at(b));
                assert_eq!(either.contains(IpAddr::$either(at(b))), has, "{one} {b:x}");
                assert_eq!(either.size(), NetworkSize::from(one.size()));
                let kinds = (either.is_ipv4(), either.is_ipv6());
                assert_eq!(kinds, ($width == 32, $width == 128));
                assert_eq!(either.to_string(), one.to_string());
                let (mut members, mut alone) = (either.iter(), one.iter());
                for _ in 0..2 {
                    assert_eq!(members.next(), alone.next().map(IpAddr::$either));
                    assert_eq!(members.next_back(), alone.next_back().map(IpAddr::$either));
                    assert_eq!(members.size_hint(), alone.size_hint());
                    assert_eq!(members.nth(skip), alone.nth(skip).map(IpAddr::$either));
                }
            }

            /// What an iterator gives, from both ends, and after a leap.
            fn members(a: u128, p: u8, skip: usize) {
                let (one, hosts) = (make(a, p), host($width, p));
                let low = a & !hosts;
                let count = usize::try_from(hosts).ok().and_then(|n| n.checked_add(1));
                let member = |n: u128| (n <= hosts).then(|| at(low + n));
                let mut leap = one.iter();
                assert_eq!(leap.size_hint(), (count.unwrap_or(usize::MAX), count));
                assert_eq!(leap.nth(skip), member(skip as u128), "{one} {skip}");
                assert_eq!(leap.next(), member(skip as u128 + 1), "{one} {skip}");
                let mut ends = one.iter();
                assert_eq!(ends.next(), member(0));
                assert_eq!(ends.next(), member(1));
                assert_eq!(ends.next_back(), (hosts > 1).then(|| at(low + hosts)));
                if hosts < 32 {
                    let all: Vec<_> = (low..=low + hosts).map(at).collect();
                    assert_eq!((&one).into_iter().collect::<Vec<_>>(), all);
                    assert!(one.iter().rev().eq(all.iter().rev().copied()));
                    assert_eq!(ends.by_ref().count() as u128, hosts.saturating_sub(2));
                    assert_eq!((ends.next(), ends.next_back()), (None, None));
                }
            }

            /// Whether a number is a mask.
            fn is_mask(a: u128, m: u128) -> bool {
                let prefix = (0..=$width).find(|n| mask($width, *n) == m);
                let prefix = prefix.map(|n| n as u8);
                let prefix = prefix.ok_or(IpNetworkError::InvalidPrefix);
                assert_eq!($mask_to_prefix(at(m)), prefix, "{m:x}");
                let made = $network::with_netmask(at(a), at(m));
                assert_eq!(made, prefix.clone().map(|prefix| make(a, prefix)));
                prefix.is_ok()
            }

            /// Whether there is a member of this number.
            fn is_number(a: u128, p: u8, n: u128) -> bool {
                let (one, hosts) = (make(a, p), host($width, p));
                let size = (hosts as $number).saturating_add(1);
                let is_number = n < u128::from(size);
                let member = is_number.then(|| at((a & !hosts) + n));
                assert_eq!(one.nth(n as $number), member, "{one} {n}");
                is_number
            }

            /// Whether the first network has the address of the second, lies in it, and meets it.
            fn together(a: u128, p: u8, b: u128, q: u8) -> [bool; 3] {
                let (one, other) = (make(a, p), make(b, q));
                let (low, high) = (a & !host($width, p), a | host($width, p));
                let (from, to) = (b & !host($width, q), b | host($width, q));
                let has = low <= b && b <= high;
                assert_eq!(one.contains(at(b)), has, "{one} {b:x}");
                let inside = from <= low && high <= to;
                assert_eq!(one.is_subnet_of(other), inside, "{one} {other}");
                assert_eq!(other.is_supernet_of(one), inside, "{one} {other}");
                let meet = low <= to && from <= high;
                assert_eq!(one.overlaps(other), meet, "{one} {other}");
                let order = (a, p).cmp(&(b, q));
                assert_eq!(one.cmp(&other), order, "{one} {other}");
                assert_eq!(IpNetwork::from(one).cmp(&other.into()), order);
                assert_eq!(one.cmp(&make(a, q)), p.cmp(&q), "{one} {q}");
                assert_eq!(one == other, order.is_eq());
                [has, inside, meet]
            }

            #[test]
            fn answers() {
                let mut random = Random(seed($seed));
                let mut seen = [[0usize; 2]; 5];
                for _ in 0..rows() {
                    let a = near(&mut random, $width, 0);
                    let b = near(&mut random, $width, a);
                    let p = random.below($width + 1) as u8;
                    let q = random.below($width + 1) as u8;
                    let n = near(&mut random, $width, host($width, p));
                    let flip = u128::from(random.next() & 1) << random.below($width);
                    let m = mask($width, u32::from(q)) ^ flip;
                    let skip = random.below(9);
                    alone(a, p);
                    either(make(a, p), b, skip);
                    members(a, p, skip);
                    let [has, inside, meet] = together(a, p, b, q);
                    let truths = [has, inside, meet, is_number(a, p, n), is_mask(a, m)];
                    for (row, truth) in seen.iter_mut().zip(truths) {
                        row[usize::from(truth)] += 1;
                    }
                }
                println!(
                    "{}: no and yes of contains, subnet, overlap, number, mask: {seen:?}",
                    stringify!($network)
                );
                assert!(
                    seen.as_flattened().iter().all(|count| *count * 50 > rows()),
                    "too few of a kind: {seen:?}"
                );
            }
        }
    };
}

questions!(
    questions_v4,
    Ipv4Network,
    Ipv4Addr,
    u32,
    32,
    ipv4_mask_to_prefix,
    V4,
    0x0f1e_2d3c_4b5a_6977
);
questions!(
    questions_v6,
    Ipv6Network,
    Ipv6Addr,
    u128,
    128,
    ipv6_mask_to_prefix,
    V6,
    0x7b31_00c5_9e21_4d03
);
