//! Uses of the crate `ipnetwork` as programs have them. Each is printed with what it gives: built with
//! the crate and with what takes its place, both have to compile, and to print the same. The `Debug` of
//! a network is not compared: that of 0.21.1 names its parts, and that of what takes its place is its
//! text (`as_texts`).

use ipnetwork::*;
use serde::{Deserialize, Serialize};
use std::collections::{BTreeMap, BTreeSet, BinaryHeap, HashMap, HashSet};
use std::convert::{TryFrom, TryInto};
use std::error::Error;
use std::fmt::{Debug, Display};
use std::hash::{Hash, Hasher};
use std::mem::{align_of, size_of};
use std::net::{AddrParseError, IpAddr, Ipv4Addr, Ipv6Addr};
use std::str::FromStr;
use std::sync::{Arc, OnceLock, RwLock};

/// Prints each expression and its value.
macro_rules! show {
    ($($name:literal: $value:expr;)*) => {
        $(println!("{}: {}", $name, as_texts(format!("{:?}", $value)));)*
    };
}

/// What was printed for debugging, with the text of each network that names its parts there.
fn as_texts(mut printed: String) -> String {
    for (start, variant) in [
        ("Ipv4Network { addr: ", "V4("),
        ("Ipv6Network { addr: ", "V6("),
    ] {
        while let Some(from) = printed.find(start) {
            let to = from + printed[from..].find(" }").expect("a struct has an end");
            let text = printed[from + start.len()..to].replace(", prefix: ", "/");
            let of_either = printed[..from].ends_with(variant);
            let all = if of_either {
                from - variant.len()..to + 3
            } else {
                from..to + 2
            };
            printed.replace_range(all, &text);
        }
    }
    printed
}

#[rustfmt::skip]
const TEXTS: [&str; 62] = [
    "10.1.9.32/16", "10.1.9.32", "10.1.9.32/", "10.1.9.32/33", "10.1.9.32/0", "10.1.9.32/32",
    "10.1.9.32/+8", "10.1.9.32/-8", "10.1.9.32/08", "10.1.9.32/008", "10.1.9.32/256",
    "10.1.9.32/ 8", "10.1.9.32 /8", " 10.1.9.32/8", "10.1.9.32/8 ", "10.1.9.32/8/8", "10.1.9.32//8",
    "/8", "/", "", "10.1.9/8", "10.1.9.32.1/8", "010.1.9.32/8", "10.1.9.256/8", "0x0a.1.9.32/8",
    "10.1.9.32/255.255.0.0", "10.1.9.32/255.0.255.0", "10.1.9.32/0.0.0.0",
    "10.1.9.32/255.255.255.255", "10.1.9.32/255.255.0", "10.1.9.32/::", "10.1.9.32/ffff::",
    "0.0.0.0/0", "255.255.255.255/32", "::/0", "::", "::1", "::1/128", "::1/129", "::1/64", "::1/",
    "::1/64/64", "2001:DB8::/32", "2001:db8:0:0:1:0:0:1/64", "2001:db8::1::/64", "2001:db8:::/64",
    "2001:db8/64", "1:2:3:4:5:6:7:8/127", "1:2:3:4:5:6:7:8:9/127", "::ffff:10.1.9.32/104",
    "::10.1.9.32/96", "::ffff:10.1.9.256/104", "fe80::1%eth0/64", "[::1]/64", "::1/ffff::",
    "::1/+64", "::1/064", "::12345/64", "g::/64", "10.1.9.32/8\n", "1\u{662}.1.1.1/8",
    "localhost/8",
];

fn v4(text: &str) -> Ipv4Network {
    text.parse().unwrap()
}

fn v6(text: &str) -> Ipv6Network {
    text.parse().unwrap()
}

fn either(text: &str) -> IpNetwork {
    text.parse().unwrap()
}

fn ip(text: &str) -> IpAddr {
    text.parse().unwrap()
}

fn v4s() -> Vec<Ipv4Network> {
    [
        "10.1.9.32/16",
        "192.0.2.0/24",
        "192.0.2.77/26",
        "10.1.0.0/16",
        "203.0.113.9/32",
    ]
    .map(v4)
    .to_vec()
}

fn v6s() -> Vec<Ipv6Network> {
    [
        "2001:db8::1/32",
        "fe80::/10",
        "::ffff:10.0.0.1/104",
        "::1/128",
    ]
    .map(v6)
    .to_vec()
}

fn eithers() -> Vec<IpNetwork> {
    let sixes = v6s().into_iter().map(IpNetwork::V6);
    sixes.chain(v4s().into_iter().map(IpNetwork::V4)).collect()
}

fn hash<T: Hash>(value: T) -> u64 {
    let mut hasher = std::collections::hash_map::DefaultHasher::new();
    value.hash(&mut hasher);
    hasher.finish()
}

fn function_paths() {
    show! {
        "network of references": v4s().iter().map(Ipv4Network::network).collect::<Vec<_>>();
        "mask of references": v4s().iter().map(Ipv4Network::mask).collect::<Vec<_>>();
        "broadcast of references": v4s().iter().map(Ipv4Network::broadcast).collect::<Vec<_>>();
        "ip of values": v4s().into_iter().map(Ipv4Network::ip).collect::<Vec<_>>();
        "prefix of values": v4s().into_iter().map(Ipv4Network::prefix).max();
        "size of values": v4s().into_iter().map(Ipv4Network::size).sum::<u32>();
        "iter of values": v4s().into_iter().flat_map(Ipv4Network::iter).take(3).collect::<Vec<_>>();
        "IPv6 network of references": v6s().iter().map(Ipv6Network::network).collect::<Vec<_>>();
        "IPv6 mask of references": v6s().iter().map(Ipv6Network::mask).collect::<Vec<_>>();
        "IPv6 broadcast of references":
            v6s().iter().map(Ipv6Network::broadcast).collect::<Vec<_>>();
        "IPv6 ip of references": v6s().iter().map(Ipv6Network::ip).collect::<Vec<_>>();
        "IPv6 prefix of references": v6s().iter().map(Ipv6Network::prefix).collect::<Vec<_>>();
        "IPv6 size of references": v6s().iter().map(Ipv6Network::size).max();
        "IPv6 iter of references":
            v6s().iter().flat_map(Ipv6Network::iter).take(3).collect::<Vec<_>>();
        "either ip": eithers().iter().map(IpNetwork::ip).collect::<Vec<_>>();
        "either prefix": eithers().iter().map(IpNetwork::prefix).collect::<Vec<_>>();
        "either network": eithers().iter().map(IpNetwork::network).collect::<Vec<_>>();
        "either broadcast": eithers().iter().map(IpNetwork::broadcast).collect::<Vec<_>>();
        "either mask": eithers().iter().map(IpNetwork::mask).collect::<Vec<_>>();
        "either size": eithers().iter().map(IpNetwork::size).collect::<Vec<_>>();
        "either iter":
            eithers().iter().map(IpNetwork::iter).map(|mut each| each.next()).collect::<Vec<_>>();
        "either is_ipv4": eithers().iter().all(IpNetwork::is_ipv4);
        "either is_ipv6": eithers().iter().position(IpNetwork::is_ipv6);
        "constructors": v4s().into_iter().map(IpNetwork::from).collect::<BTreeSet<_>>();
        "of addresses": [Ipv4Addr::LOCALHOST].map(Ipv4Network::from);
        "of IPv6 addresses": [Ipv6Addr::LOCALHOST].map(Ipv6Network::from);
        "of either address": ["::1", "10.0.0.1"].map(ip).map(IpNetwork::from);
        "to_string": eithers().iter().map(ToString::to_string).collect::<Vec<_>>().join(" ");
        "parse":
            "10.0.0.0/8 ::/0".split(' ').map(str::parse::<IpNetwork>).collect::<Result<Vec<_>,
                _>>();
        "from_str":
            "10.0.0.0/8 x".split(' ').map(Ipv4Network::from_str).collect::<Result<Vec<_>, _>>();
        "try_from": "::/8 x".split(' ').map(Ipv6Network::try_from).collect::<Vec<_>>();
        "masks": [Ipv4Addr::BROADCAST, Ipv4Addr::LOCALHOST].map(ipv4_mask_to_prefix);
        "IPv6 masks": [Ipv6Addr::UNSPECIFIED, Ipv6Addr::LOCALHOST].map(ipv6_mask_to_prefix);
        "masks of either": ["255.254.0.0", "ffff:8000::", "::1"].map(ip).map(ip_mask_to_prefix);
        "a pointer to contains": {
            let asked: fn(&Ipv4Network, Ipv4Addr) -> bool = Ipv4Network::contains;
            asked(&v4("10.0.0.0/8"), Ipv4Addr::new(10, 255, 255, 255))
        };
        "a pointer to contains of IPv6": {
            let asked: fn(&Ipv6Network, Ipv6Addr) -> bool = Ipv6Network::contains;
            asked(&v6("fe80::/10"), Ipv6Addr::LOCALHOST)
        };
        "a pointer to contains of either": {
            let asked: fn(&IpNetwork, IpAddr) -> bool = IpNetwork::contains;
            asked(&either("10.0.0.0/8"), ip("::ffff:10.0.0.1"))
        };
        "pointers to nth": {
            let nth: fn(Ipv4Network, u32) -> Option<Ipv4Addr> = Ipv4Network::nth;
            let nth6: fn(Ipv6Network, u128) -> Option<Ipv6Addr> = Ipv6Network::nth;
            (nth(v4("10.0.0.9/8"), 257), nth(v4("10.0.0.9/32"), 1), nth6(v6("::/0"), 1 << 100))
        };
        "pointers to relations": {
            let of: [fn(Ipv4Network, Ipv4Network) -> bool; 3] =
                [Ipv4Network::is_subnet_of, Ipv4Network::is_supernet_of, Ipv4Network::overlaps];
            of.map(|relation| relation(v4("10.1.0.0/16"), v4("10.0.0.0/8")))
        };
        "pointers to IPv6 relations": {
            let of: [fn(Ipv6Network, Ipv6Network) -> bool; 3] =
                [Ipv6Network::is_subnet_of, Ipv6Network::is_supernet_of, Ipv6Network::overlaps];
            of.map(|relation| relation(v6("2001:db8::/32"), v6("2001:db8:1::/48")))
        };
        "pointers to constructors": {
            let new: fn(Ipv4Addr, u8) -> Result<Ipv4Network, IpNetworkError> = Ipv4Network::new;
            let checked: fn(Ipv6Addr, u8) -> Option<Ipv6Network> = Ipv6Network::new_checked;
            let of: fn(IpAddr, u8) -> Result<IpNetwork, IpNetworkError> = IpNetwork::new;
            (new(Ipv4Addr::LOCALHOST, 33), checked(Ipv6Addr::LOCALHOST, 129), of(ip("::1"), 128))
        };
        "pointers to constructors by masks": {
            let of: fn(Ipv4Addr, Ipv4Addr) -> Result<Ipv4Network, IpNetworkError> =
                Ipv4Network::with_netmask;
            let of6: fn(Ipv6Addr, Ipv6Addr) -> Result<Ipv6Network, IpNetworkError> =
                Ipv6Network::with_netmask;
            (of(Ipv4Addr::LOCALHOST, [255, 0, 0, 0].into()), of6(Ipv6Addr::LOCALHOST,
                Ipv6Addr::LOCALHOST))
        };
        "masks of the other family":
            [("10.0.0.1", "ff00::"), ("::1", "255.0.0.0"), ("10.0.0.1", "ffff:ffff:ff00::")]
            .map(|(address, mask)| IpNetwork::with_netmask(ip(address), ip(mask)));
    }
}

const NETWORK: Ipv4Network = match Ipv4Network::new_checked(Ipv4Addr::new(10, 0, 0, 0), 8) {
    Some(network) => network,
    None => panic!(),
};
const NETWORK6: Result<Ipv6Network, IpNetworkError> = Ipv6Network::new(Ipv6Addr::LOCALHOST, 64);
const REFUSED: Result<Ipv4Network, IpNetworkError> = Ipv4Network::new(Ipv4Addr::LOCALHOST, 33);
const LIST: &[IpNetwork] = &[IpNetwork::V4(NETWORK)];
static PRIVATE: [Option<Ipv4Network>; 2] = [
    Ipv4Network::new_checked(Ipv4Addr::new(172, 16, 0, 0), 12),
    Ipv4Network::new_checked(Ipv4Addr::new(192, 168, 0, 0), 16),
];

fn constants_and_patterns() {
    show! {
        "constants": (NETWORK, NETWORK6, REFUSED, LIST);
        "a static":
            PRIVATE.iter().flatten().any(|network| network.contains(Ipv4Addr::new(172, 31, 0, 1)));
        "a constant in a block":
            { const ALL: Ipv6Network = Ipv6Network::new_checked(Ipv6Addr::UNSPECIFIED, 0).unwrap();
                ALL };
        "a constant as a pattern": match v4("10.0.0.0/8") { NETWORK => "it", _ => "another" };
        "a pattern with a constant inside": matches!(LIST, [IpNetwork::V4(NETWORK)]);
        "a match of families": eithers().iter().map(|network| match network {
            IpNetwork::V4(network) if network.prefix() > 24 => u128::from(u32::from(network.ip())),
            IpNetwork::V4(network) => network.size().into(),
            IpNetwork::V6(network) => network.size(),
        }).collect::<Vec<_>>();
        "a match by value":
            match either("::/0") { IpNetwork::V4(it) => it.to_string(), IpNetwork::V6(it) =>
                it.to_string() };
        "let else":
            { let IpNetwork::V6(network) = either("::1/64") else { panic!() }; network.nth(1) };
        "if let":
            if let IpNetwork::V4(network) = either("10.0.0.0/8") {
                Some(network.broadcast()) } else { None };
        "a match of a size":
            match either("10.0.0.0/8").size() { NetworkSize::V4(size) => size, NetworkSize::V6(_) =>
                0 };
        "a match of errors": TEXTS.map(|text| match text.parse::<Ipv4Network>() {
            Ok(_) => 0,
            Err(IpNetworkError::InvalidAddr(why)) => why.len(),
            Err(IpNetworkError::InvalidPrefix) => 1,
            Err(IpNetworkError::InvalidCidrFormat(why)) => why.len() + 100,
            Err(IpNetworkError::NetworkSizeError(_)) => 3,
            Err(_) => 4,
        });
        "an error made": IpNetworkError::NetworkSizeError(NetworkSizeError::NetworkIsTooLarge);
    }
}

/// What every network is, as a bound.
trait Net:
    Copy + Ord + Hash + Debug + Display + FromStr<Err = IpNetworkError> + Send + Sync + Unpin + 'static
{
    fn first(&self) -> IpAddr;
}

impl Net for IpNetwork {
    fn first(&self) -> IpAddr {
        self.network()
    }
}

impl Net for Ipv4Network {
    fn first(&self) -> IpAddr {
        self.network().into()
    }
}

impl Net for Ipv6Network {
    fn first(&self) -> IpAddr {
        self.network().into()
    }
}

fn read<T: Net>(text: &str) -> Result<(T, IpAddr), IpNetworkError> {
    let network: T = text.parse()?;
    Ok((network, network.first()))
}

fn first_of<T, A>(network: &T) -> Option<A>
where
    for<'a> &'a T: IntoIterator<Item = A>,
{
    network.into_iter().next()
}

fn made<'a, T: TryFrom<&'a str, Error = IpNetworkError>>(text: &'a str) -> Result<T, String> {
    T::try_from(text).map_err(|error| error.to_string())
}

fn is_fault<
    E: Error + Clone + Eq + Debug + Display + Send + Sync + std::panic::UnwindSafe + 'static,
>(
    error: E,
) -> String {
    error.to_string()
}

fn counted<I: Iterator + Clone + Debug + Send + Sync + Unpin + 'static>(
    members: I,
) -> (usize, String) {
    (members.clone().count(), format!("{members:?}"))
}

fn total<S: Into<u128>>(sizes: impl IntoIterator<Item = S>) -> u128 {
    sizes.into_iter().map(Into::into).sum()
}

struct Owned<N>(N);

impl<N: Into<IpNetwork>> From<Owned<N>> for IpNetwork {
    fn from(owned: Owned<N>) -> IpNetwork {
        owned.0.into()
    }
}

fn bounds() {
    show! {
        "a bound for IPv4": read::<Ipv4Network>("10.1.0.0/8");
        "a bound for IPv6": read::<Ipv6Network>("2001:db8::1/32");
        "a bound for either": (read::<IpNetwork>("2001:db8::1/32"), read::<IpNetwork>("x"));
        "members of a reference":
            (first_of(&v4("10.1.0.0/8")), first_of(&v6("ff::/8")), first_of(&either("10.0.0.0/8")));
        "try_from as a bound":
            (made::<Ipv4Network>("10.0.0.0/8/8"), made::<Ipv6Network>("::/129"),
                made::<IpNetwork>("x"));
        "errors as a bound":
            (is_fault(IpNetworkError::InvalidPrefix),
                is_fault(NetworkSizeError::NetworkIsTooLarge));
        "iterators as a bound":
            (counted(v4("10.0.0.0/30").iter()), counted(v6("::/126").iter()),
                counted(either("::/127").iter()));
        "sizes as a bound": (total([1u32, 2]), total(eithers()[4..].iter().map(IpNetwork::size)));
        "into either": IpNetwork::from(Owned(v4("10.0.0.0/8")));
        "into": { let network: IpNetwork = v6("::/8").into(); network };
        "a size of a number":
            (NetworkSize::from(1u32), NetworkSize::from(1u128), u128::from(NetworkSize::V4(7)));
        "a number of a size": {
            let numbers: [Result<u32, NetworkSizeError>; 2] = [NetworkSize::V4(9).try_into(),
                NetworkSize::V6(9).try_into()];
            numbers
        };
        "layouts": [
            (size_of::<Ipv4Network>(), align_of::<Ipv4Network>()), (size_of::<Ipv6Network>(),
                align_of::<Ipv6Network>()),
            (size_of::<IpNetwork>(), align_of::<IpNetwork>()), (size_of::<NetworkSize>(),
                align_of::<NetworkSize>()),
        ];
    }
}

fn collections() {
    show! {
        "sorted": { let mut list = v4s(); list.sort(); list };
        "sorted IPv6": { let mut list = v6s(); list.sort_unstable(); list };
        "sorted either": { let mut list = eithers(); list.sort(); list };
        "sorted by a key":
            { let mut list = eithers(); list.sort_by_key(|each| (each.is_ipv6(), each.prefix()));
                list };
        "sorted by length":
            { let mut list = v4s(); list.sort_by(|a, b| b.prefix().cmp(&a.prefix()).then(a.cmp(b)));
                list };
        "no doubles": { let mut list = v4s(); list.dedup_by_key(|each| each.network()); list };
        "binary search":
            { let mut list = v4s(); list.sort(); list.binary_search(&v4("192.0.2.0/24")) };
        "a set": v4s().into_iter().chain(v4s()).collect::<HashSet<_>>().len();
        "a set by trees": eithers().into_iter().collect::<BTreeSet<_>>();
        "a map":
            HashMap::from([(either("::/0"), 1), (either("0.0.0.0/0"), 2)])[&either("0.0.0.0/0")];
        "a range of a map":
            BTreeMap::from([(v4("10.0.0.0/8"), 1), (v4("11.0.0.0/8"), 2)]).range(..v4("10.0.0.1/8"))
                .count();
        "a heap": BinaryHeap::from(v6s()).pop();
        "least and greatest": (v4s().into_iter().min(), eithers().iter().max());
        "compared":
            (v4("10.0.0.0/8") < v4("10.0.0.0/9"), either("255.0.0.0/8") < either("::/0"),
                v6("::/0") == v6("::/1"));
        "partly compared": v4("10.0.0.1/8").partial_cmp(&v4("10.0.0.0/8"));
        "clamped": v4("9.0.0.0/8").clamp(v4("10.0.0.0/8"), v4("11.0.0.0/8"));
        "hashes":
            (hash(v4("10.0.0.1/8")), hash(v6("::1/8")), hash(either("10.0.0.1/8")),
                hash(either("::1/8")));
        "hashes of sizes":
            (hash(NetworkSize::V4(5)) == hash(NetworkSize::V6(5)),
                hash(NetworkSize::V6(5)) == hash(5u128));
        "sizes compared":
            (NetworkSize::V4(5) == NetworkSize::V6(5), NetworkSize::V4(5).max(NetworkSize::V6(4)));
        "partition": eithers().into_iter().partition::<Vec<_>, _>(IpNetwork::is_ipv4);
        "unzip":
            v4s().iter().map(|each| (each.ip(), each.prefix())).unzip::<_, _, Vec<_>, Vec<_>>();
        "fold": v4s().iter().fold(0u64, |sum, each| sum + u64::from(each.size()));
    }
}

fn members() {
    show! {
        "a loop":
            { let mut last = None; for address in &v4("10.0.0.9/29") { last = Some(address);
                } last };
        "a loop over either":
            { let mut count = 0; for _ in &either("2001:db8::/124") { count += 1; } count };
        "an iterator as it goes":
            { let mut members = v4("10.0.0.0/30").iter(); (members.next(),
                format!("{members:?}")) };
        "an iterator at its end":
            { let mut members = v4("10.0.0.0/31").iter(); members.by_ref().count(); members };
        "an IPv6 iterator":
            { let mut members = v6("::/127").iter(); (members.next(), members.next(),
                members.next(), members) };
        "an iterator of either":
            { let mut members = either("::/64").iter(); (members.nth(2), members) };
        "iterators printed":
            (v4("10.0.0.0/8").iter(), v6("::/64").iter(), either("10.0.0.0/8").iter(),
                either("::/0").iter());
        "an iterator printed at length": format!("{:#?}", either("10.0.0.0/31").iter());
        "steps": v4("10.0.0.0/28").iter().skip(1).step_by(5).collect::<Vec<_>>();
        "hosts":
            v4("10.0.0.0/29").iter().filter(|each| *each != Ipv4Addr::new(10, 0, 0, 7)).skip(1)
                .collect::<Vec<_>>();
        "zip": v4("10.0.0.0/30").iter().zip(v6("::/126").iter()).last();
        "members that are":
            either("10.0.0.0/30").iter().map(|each| each.is_loopback()).collect::<Vec<_>>();
        "nth within": (0..6).map(|n| v4("10.0.0.6/30").nth(n)).collect::<Vec<_>>();
        "the last networks":
            (v4("255.255.255.255/30").iter().last(),
                v6("ffff:ffff:ffff:ffff:ffff:ffff:ffff:ffff/126").iter().last());
        "all of IPv4":
            (v4("0.0.0.0/0").size(), v4("1.2.3.4/0").iter().next(), v4("0.0.0.0/0").nth(u32::MAX));
        "all of IPv6": (v6("::/0").size(), v6("1::/0").iter().next(), v6("::/0").nth(u128::MAX));
        "a closure that owns": {
            let asked: Box<dyn Fn(IpAddr) -> bool + Send + Sync> = { let list = eithers();
                Box::new(move |of| list.iter().any(|each| each.contains(of))) };
            ["10.1.0.1", "10.2.0.1", "fe80::1"].map(|of| asked(ip(of)))
        };
        "threads": std::thread::spawn(|| v4s().len()).join().ok();
        "ends of each length":
            (0..=32).map(|length| Ipv4Network::new([192, 0, 2, 77].into(), length).unwrap())
            .map(|each| (each.network(), each.broadcast(), each.mask(), each.size()))
                .collect::<Vec<_>>();
        "ends of each IPv6 length":
            (0..=128).step_by(7).map(|length| Ipv6Network::new(v6s()[0].ip(), length).unwrap())
            .map(|each| (each.network(), each.broadcast(), each.mask(), each.size()))
                .collect::<Vec<_>>();
    }
}

/// A struct with derives over networks, as programs keep them.
#[derive(Clone, Copy, Debug, PartialEq, Eq, PartialOrd, Ord, Hash)]
struct Rule {
    from: IpNetwork,
    to: Option<Ipv4Network>,
    allowed: bool,
}

/// The error of a program, made of those of the crate by `?`.
enum Failed {
    Network(IpNetworkError),
    Size(NetworkSizeError),
}

impl From<IpNetworkError> for Failed {
    fn from(error: IpNetworkError) -> Failed {
        Failed::Network(error)
    }
}

impl From<NetworkSizeError> for Failed {
    fn from(error: NetworkSizeError) -> Failed {
        Failed::Size(error)
    }
}

fn members_of(text: &str) -> Result<u32, Failed> {
    let network: IpNetwork = text.parse()?;
    Ok(network.size().try_into()?)
}

/// What reads an argument of a command line, as crates for these have it.
fn argument<T>(text: &str) -> Result<T, Box<dyn Error + Send + Sync>>
where
    T: FromStr + Clone + Send + Sync + 'static,
    T::Err: Into<Box<dyn Error + Send + Sync + 'static>>,
{
    text.parse::<T>().map_err(Into::into)
}

fn any_has(networks: impl IntoIterator<Item = impl Into<IpNetwork>>, address: IpAddr) -> bool {
    networks
        .into_iter()
        .any(|network| network.into().contains(address))
}

static KNOWN: OnceLock<Vec<IpNetwork>> = OnceLock::new();

fn idioms() {
    let asked = Ipv4Addr::new(192, 0, 2, 78);
    let wide = v4("192.0.0.0/16");
    show! {
        "networks that have an address":
            v4s().iter().filter(|network| network.contains(asked)).collect::<Vec<_>>();
        "values that have an address":
            v4s().into_iter().filter(|network| network.contains(asked)).collect::<Vec<_>>();
        "the first that has it": v4s().iter().find(|network| network.contains(asked)).copied();
        "where it is": eithers().iter().position(|network| network.contains(asked.into()));
        "the longest that has it":
            v4s().into_iter().filter(|each| each.contains(asked)).max_by_key(|each| each.prefix());
        "those that lie in another":
            v4s().into_iter().filter(|each| each.is_subnet_of(wide)).count();
        "those that another has":
            v4s().into_iter().all(|each| !each.is_supernet_of(wide));
        "pairs that overlap":
            v4s().iter().flat_map(|a| v4s().into_iter().map(move |b| a.overlaps(b)))
                .filter(|both| *both).count();
        "retained": { let mut list = v6s(); list.retain(|each| each.prefix() > 64); list };
        "options":
            (Some(wide).map(Ipv4Network::prefix), Some(&wide).map(Ipv4Network::network),
                Some(v6("::1/64")).as_ref().map(Ipv6Network::ip),
                Some(either("::1/64")).as_ref().map_or(0, IpNetwork::prefix));
        "closures with a type":
            (v4s().iter().map(|each: &Ipv4Network| each.size()).max(),
                v6s().iter().map(|each: &Ipv6Network| each.size()).max());
        "sizes as numbers":
            (v4("10.0.0.0/8").size() as usize, u64::from(v4("10.0.0.0/8").size()),
                f64::from(v4("10.0.0.0/30").size()), v6("::/64").size() as f64);
        "sizes beside what becomes a number":
            (v6("::/120").size() == "256".parse().unwrap(), v6("::/120").size() < 300_u32.into(),
                v4("10.0.0.0/24").size() >= 7_u8.into(), "1".parse().map_or(true, |it| 2_u128 > it));
        "groups": v4s().into_iter().fold(BTreeMap::<u8, Vec<_>>::new(), |mut groups, each| {
            groups.entry(each.prefix()).or_default().push(each);
            groups
        });
        "entries": {
            let mut counts = HashMap::new();
            eithers().iter().chain(&eithers()).for_each(|each| *counts.entry(*each).or_insert(0) += 1);
            counts.values().all(|count| *count == 2)
        };
        "kept once": { let mut list = v4s(); list.extend(v4s()); list.sort(); list.dedup(); list.len() };
        "rules": {
            let rule = |from, to: Option<&str>| Rule { from: either(from), to: to.map(v4), allowed: true };
            let rules = BTreeSet::from([rule("::/0", None), rule("10.0.0.0/8", Some("11.0.0.0/8"))]);
            (hash(rules.first()), rules)
        };
        "errors of a program":
            ["10.0.0.0/8", "::/64", "x"].map(|text| members_of(text).map_err(|why| match why {
                Failed::Network(why) => why.to_string(),
                Failed::Size(why) => why.to_string(),
            }));
        "arguments":
            (argument::<Ipv4Network>("10.0.0.0/8").ok(), argument::<IpNetwork>("x")
                .map_err(|error| error.to_string()));
        "what is either":
            (any_has(v4s(), asked.into()), any_has(v6s(), asked.into()),
                any_has([IpAddr::from(asked)], asked.into()));
        "known once": KNOWN.get_or_init(eithers).len();
        "shared": { let list: Arc<[IpNetwork]> = eithers().into(); Arc::clone(&list)[0] };
        "behind a lock": RwLock::new(v4s()).write().unwrap().pop();
        "texts that are taken": {
            let (owned, borrowed): (String, &str) = ("10.0.0.0/8".into(), "::/8");
            let first: Result<Ipv4Network, _> = owned.as_str().try_into();
            let second: Result<Ipv6Network, _> = borrowed.try_into();
            (first, second, IpNetwork::try_from(&*owned), IpNetwork::from_str(&owned))
        };
        "boxed members": {
            let all: Vec<Box<dyn Iterator<Item = IpAddr>>> = vec![
                Box::new(either("10.0.0.0/31").iter()), Box::new(v6("::/127").iter().map(IpAddr::from))];
            all.into_iter().flatten().collect::<Vec<_>>()
        };
        "octets": v4("10.0.0.0/30").iter().map(|address| address.octets()[3]).sum::<u8>();
        "numbered members":
            { let mut last = None; for each in v4("10.0.0.9/29").iter().enumerate() { last = Some(each); }
                last };
        "members by reference": { let network = v4("10.0.0.0/30"); (&network).into_iter().count() };
        "refused in words":
            Ipv4Network::new(asked, 40).map(|it| it.to_string()).unwrap_or_else(|why| why.to_string());
        "an error with a text":
            matches!("y".parse::<IpNetwork>(), Err(IpNetworkError::InvalidAddr(ref of)) if of == "y");
        "what survives a panic":
            std::panic::catch_unwind(|| v4s().iter().map(Ipv4Network::network).max()).ok();
    }
}

fn several() -> Result<Ipv4Network, IpNetworkError> {
    let address: Ipv4Addr = "10.0.0.1".parse()?;
    let network = Ipv4Network::new(address, ipv4_mask_to_prefix("255.0.0.0".parse()?)?)?;
    Ipv4Network::with_netmask(network.ip(), "255.0.0.255".parse()?)
}

fn boxed(text: &str) -> Result<u32, Box<dyn Error + Send + Sync>> {
    Ok(u32::try_from(IpNetwork::try_from(text)?.size())?)
}

#[allow(deprecated)]
fn texts_and_errors() {
    let errors = [
        IpNetworkError::InvalidAddr("x".into()),
        IpNetworkError::InvalidPrefix,
        IpNetworkError::InvalidCidrFormat("y".into()),
        IpNetworkError::NetworkSizeError(NetworkSizeError::NetworkIsTooLarge),
    ];
    show! {
        "texts of IPv4": TEXTS.map(str::parse::<Ipv4Network>);
        "texts of IPv6": TEXTS.map(str::parse::<Ipv6Network>);
        "texts of either": TEXTS.map(str::parse::<IpNetwork>);
        "what they are printed as":
            TEXTS.iter().filter_map(|text| text.parse().ok()).map(|it: IpNetwork| it.to_string())
                .collect::<Vec<_>>();
        "the question mark": several();
        "the question mark in a box":
            ["10.0.0.0/8", "::/8", "x", "10.0.0.0/8/8"].map(|text| boxed(text)
                .map_err(|error| error.to_string()));
        "an error of an address":
            "x".parse::<Ipv4Addr>().map_err(|error: AddrParseError| IpNetworkError::from(error));
        "errors": &errors;
        "texts of errors": errors.each_ref().map(ToString::to_string);
        "descriptions": errors.each_ref().map(|error| error.description().to_string());
        "sources": errors.each_ref().map(|error| error.source().is_none());
        "errors compared": (errors[0] == errors[1], errors[0].clone() == errors[0]);
        "an error of a size": NetworkSizeError::NetworkIsTooLarge;
        "an error taken back":
            boxed("::/8").unwrap_err().downcast_ref::<NetworkSizeError>().copied();
        "networks printed":
            format!("{} {} {}", v4("10.0.0.1/8"), v6("::FFFF:a00:1/104"), either("2001:DB8::/32"));
        "sizes printed":
            format!("{} {} [{:>9}] [{:<9}] [{:09}] [{:+}]", NetworkSize::V4(1),
                NetworkSize::V6(u128::MAX), NetworkSize::V4(7), NetworkSize::V6(7),
                NetworkSize::V4(7), NetworkSize::V4(7));
        "sizes printed for debugging":
            format!("{:?} {:?}", NetworkSize::V4(1), NetworkSize::V6(u128::MAX));
        "an error printed with a width": format!("[{:>40}]", NetworkSizeError::NetworkIsTooLarge);
    }
}

fn json() {
    #[derive(Debug, Deserialize, PartialEq, Serialize)]
    struct Route<'a> {
        to: IpNetwork,
        via: Option<Ipv4Network>,
        by: &'a str,
        more: HashMap<Ipv6Network, u8>,
    }
    let route = Route {
        to: either("2001:DB8::1/32"),
        via: None,
        by: "here",
        more: HashMap::from([(v6("::/8"), 1)]),
    };
    let text = serde_json::to_string(&route).unwrap();
    show! {
        "a struct as JSON": text;
        "a struct out of JSON": serde_json::from_str::<Route<'_>>(&text).unwrap() == route;
        "networks as JSON":
            (serde_json::to_value(v4("10.0.0.1/8")).ok(), serde_json::to_string(&eithers()).ok());
        "networks out of JSON":
            TEXTS.map(|text| serde_json::from_value::<IpNetwork>(text.into())
                .map_err(|error| error.to_string()));
        "IPv4 networks out of JSON":
            TEXTS.map(|text| serde_json::from_value::<Ipv4Network>(text.into())
                .map_err(|error| error.to_string()));
        "no text": serde_json::from_str::<Ipv6Network>("8").map_err(|error| error.to_string());
    }
}

fn main() {
    function_paths();
    constants_and_patterns();
    bounds();
    collections();
    members();
    idioms();
    texts_and_errors();
    json();
}
