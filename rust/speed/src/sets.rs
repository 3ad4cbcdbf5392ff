//! Sets of addresses, beside those of the core and `BTreeSet`: asked, made, and changed.

use crate::call::{Call, compare};
use crate::measure::Random;
use fosibegan::{AddressSet, AddressSetBuilder, IpNetwork, Ipv4Network, Ipv6Network, Network};
use fosibegan_core::ipnetwork_addr as core_addr;
use fosibegan_core::plain_std::alloc::Global;
use fosibegan_core::plain_std::vec::Vec as CoreVec;
use fosibegan_core::{AddressIndex, AddressSet as CoreSet};
use std::hint::black_box;
use std::net::{IpAddr, Ipv4Addr, Ipv6Addr};
use std::time::Instant;

type Core4 = fosibegan_core::Ipv4Network;
type Core6 = fosibegan_core::Ipv6Network;

const OURS: &str = "fosibegan";
const CORE: &str = "core";
/// How many addresses are asked for.
const ASKED: usize = 4096;
/// How many networks sets are made of.
const FEW: usize = 10_000;
const MANY: usize = 400_000;

/// Networks of IPv4 routes, and addresses of which about half lie in one.
pub fn v4(count: usize) -> (Vec<Ipv4Network>, Vec<Ipv4Addr>) {
    let mut random = Random(0x1234_5678_9abc_def1);
    let mut made = |_| {
        let prefix = 16 + (random.next() % 17) as u8;
        Ipv4Network::new(Ipv4Addr::from_bits((random.next() >> 32) as u32), prefix).unwrap()
    };
    let networks: Vec<_> = (0..count).map(&mut made).collect();
    let within = |(at, network): (usize, &Ipv4Network)| {
        Ipv4Addr::from_bits(network.broadcast().to_bits() ^ ((at as u32 & 1) << 31))
    };
    let asked = networks
        .iter()
        .cycle()
        .step_by(7)
        .enumerate()
        .map(within)
        .take(ASKED)
        .collect();
    (networks, asked)
}

/// The same of IPv6, from 2000::/3.
pub fn v6(count: usize) -> (Vec<Ipv6Network>, Vec<Ipv6Addr>) {
    let mut random = Random(0x0f1e_2d3c_4b5a_6977);
    let mut made = |_| {
        let bits = (u128::from(random.next()) << 64 | u128::from(random.next())) >> 3 | 1 << 125;
        Ipv6Network::new(Ipv6Addr::from_bits(bits), 32 + (random.next() % 33) as u8).unwrap()
    };
    let networks: Vec<_> = (0..count).map(&mut made).collect();
    let within = |(at, network): (usize, &Ipv6Network)| {
        Ipv6Addr::from_bits(network.broadcast().to_bits() ^ ((at as u128 & 1) << 125))
    };
    let asked = networks
        .iter()
        .cycle()
        .step_by(7)
        .enumerate()
        .map(within)
        .take(ASKED)
        .collect();
    (networks, asked)
}

/// The core's form of a network or an address.
pub trait OfCore {
    type Core: Copy;
    fn of_core(self) -> Self::Core;
}

impl OfCore for Ipv4Addr {
    type Core = core_addr::Ipv4Addr;
    fn of_core(self) -> Self::Core {
        self.to_bits().into()
    }
}

impl OfCore for Ipv6Addr {
    type Core = core_addr::Ipv6Addr;
    fn of_core(self) -> Self::Core {
        self.to_bits().into()
    }
}

impl OfCore for Ipv4Network {
    type Core = Core4;
    fn of_core(self) -> Core4 {
        Core4::new_checked(self.ip().of_core(), self.prefix()).unwrap()
    }
}

impl OfCore for Ipv6Network {
    type Core = Core6;
    fn of_core(self) -> Core6 {
        Core6::new_checked(self.ip().of_core(), self.prefix()).unwrap()
    }
}

/// These values as the core has them.
pub fn of_core<T: OfCore + Copy>(values: &[T]) -> Vec<T::Core> {
    values.iter().map(|value| value.of_core()).collect()
}

/// A list of the core with these values.
pub fn list<T: Copy>(values: &[T]) -> CoreVec<T> {
    CoreVec::from_slice(Global, values).expect("memory")
}

/// What is asked of a set of ours: by the set, frozen, and by a column.
fn ours<'a, N: Network>(
    calls: &mut Vec<Call<'a>>,
    kind: &str,
    networks: &[N],
    asked: &'a [N::Addr],
) {
    let set: &AddressSet<N> = Box::leak(Box::new(networks.iter().copied().collect()));
    let frozen = Box::leak(Box::new(set.freeze()));
    let name = |call: &str| format!("{call}, {kind}");
    calls.push(Call::on(&name("contains"), OURS, asked, |addr| {
        set.contains(*addr).into()
    }));
    let frozen: &_ = frozen;
    calls.push(Call::on(&name("frozen"), OURS, asked, |addr| {
        frozen.contains(*addr).into()
    }));
    let mut answers = vec![false; asked.len()];
    calls.push(Call::new(&name("column"), OURS, asked.len(), move || {
        frozen.contains_each(asked, &mut answers);
        answers.iter().map(|answer| u64::from(*answer)).sum()
    }));
}

/// The same of the core.
macro_rules! core_calls {
    ($calls:ident, $kind:expr, $networks:ident, $asked:ident) => {
        let asked: &[_] = of_core($asked).leak();
        let set: &_ = Box::leak(Box::new(CoreSet::from_networks(list(&of_core(&$networks)))));
        let index: &_ = Box::leak(Box::new(
            AddressIndex::from_set(Global, set).expect("memory"),
        ));
        let name = |call: &str| format!("{call}, {}", $kind);
        $calls.push(Call::on(&name("contains"), CORE, asked, |addr| {
            set.contains(*addr).into()
        }));
        $calls.push(Call::on(&name("frozen"), CORE, asked, |addr| {
            index.contains(*addr).into()
        }));
        let mut answers = vec![false; asked.len()];
        $calls.push(Call::new(&name("column"), CORE, asked.len(), move || {
            index.contains_each(asked, &mut answers);
            answers.iter().map(|answer| u64::from(*answer)).sum()
        }));
    };
}

/// A set made of networks at once, by the builder, and of single ones.
fn making<'a>(calls: &mut Vec<Call<'a>>, count: usize) {
    let (networks, _) = v4(count);
    let networks: &'static [_] = networks.leak();
    let core: &'static [_] = of_core(networks).leak();
    let name = |call: &str| format!("{call}, {count}");
    calls.push(Call::new(&name("made at once"), OURS, count, move || {
        networks
            .iter()
            .copied()
            .collect::<AddressSet<Ipv4Network>>()
            .len() as u64
    }));
    calls.push(Call::new(&name("made at once"), CORE, count, move || {
        CoreSet::from_networks(list(core)).blocks().len() as u64
    }));
    calls.push(Call::new(&name("by a builder"), OURS, count, move || {
        let mut builder = AddressSetBuilder::<Ipv4Network>::default();
        networks.iter().for_each(|network| builder.insert(*network));
        builder.build().len() as u64
    }));
    if count <= FEW {
        calls.push(Call::new(&name("single inserts"), OURS, count, move || {
            inserted(networks)
        }));
        calls.push(Call::new(&name("single inserts"), CORE, count, move || {
            let mut set = CoreSet::from_networks(CoreVec::new(Global));
            core.iter()
                .for_each(|network| _ = set.insert(*network).expect("memory"));
            set.blocks().len() as u64
        }));
    }
}

/// The length of the set that these networks make, one inserted after the other.
fn inserted(networks: &[Ipv4Network]) -> u64 {
    let mut set = AddressSet::<Ipv4Network>::default();
    networks.iter().for_each(|network| _ = set.insert(*network));
    set.len() as u64
}

/// Measures them, and prints what they take.
pub fn sets(passes: usize) {
    let mut calls = Vec::new();
    let (of_v4, asked_v4) = v4(FEW);
    let (of_v6, asked_v6) = v6(FEW);
    let (asked_v4, asked_v6): (&'static [_], &'static [_]) = (asked_v4.leak(), asked_v6.leak());
    ours(&mut calls, "IPv4", &of_v4, asked_v4);
    core_calls!(calls, "IPv4", of_v4, asked_v4);
    ours(&mut calls, "IPv6", &of_v6, asked_v6);
    core_calls!(calls, "IPv6", of_v6, asked_v6);
    let four = of_v4.iter().map(|network| IpNetwork::V4(*network));
    let both: Vec<_> = four
        .chain(of_v6.iter().map(|network| IpNetwork::V6(*network)))
        .collect();
    let pairs = asked_v4.iter().zip(asked_v6);
    let asked = pairs.flat_map(|(four, six)| [IpAddr::V4(*four), IpAddr::V6(*six)]);
    ours(
        &mut calls,
        "either",
        &both,
        asked.collect::<Vec<_>>().leak(),
    );
    compare(&mut calls, passes, &[OURS, CORE], CORE, &[]);
    for (count, passes) in [
        (10_000, passes.div_ceil(10)),
        (400_000, passes.div_ceil(100)),
    ] {
        let mut calls = Vec::new();
        making(&mut calls, count);
        compare(&mut calls, passes, &[OURS, CORE], CORE, &[]);
    }
    let (many, _) = v4(MANY);
    let start = Instant::now();
    black_box(inserted(&many));
    println!(
        "{MANY} single inserts: {:.2} s",
        start.elapsed().as_secs_f64()
    );
}
