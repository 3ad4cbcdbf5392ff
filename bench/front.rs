//! Nanoseconds a question to sets and maps of the crate `fosibegan`, of 10,000 networks, as `bindings/c/speed.c` asks those
//! of the library for C: IPv4 networks of 20 to 28 bits, and IPv6 networks of 36 to 64 bits that share 20. About half of
//! the addresses are in one. Of a column the time of a row counts.

use fosibegan::{AddressSetBuilder, FrozenMap, FrozenSet, Ipv4Network, Ipv6Network, Network, PrefixMap};
use std::hint::black_box;
use std::net::{Ipv4Addr, Ipv6Addr};
use std::time::Instant;

#[allow(dead_code)]
#[path = "../rust/patched/plain/examples/measure/mod.rs"]
mod measure;

use measure::{Random, measure};

const MANY: usize = 10_000;
const ASKED: usize = 4096;
const TRIES: usize = 200;

fn v4(random: &mut Random) -> Ipv4Network {
    let address = Ipv4Addr::from_bits((random.next() >> 32) as u32);
    Ipv4Network::new(address, 20 + (random.next() % 9) as u8).unwrap()
}

fn v6(random: &mut Random) -> Ipv6Network {
    let bits = u128::from(random.next()) << 64 | u128::from(random.next());
    let address = Ipv6Addr::from_bits(0x2001_0 << 108 | bits >> 20);
    Ipv6Network::new(address, 36 + (random.next() % 29) as u8).unwrap()
}

/// Networks, and addresses, half of them of one of the networks and half at random.
fn made<N: Network>(make: fn(&mut Random) -> N, of: fn(N) -> N::Addr) -> (Vec<N>, Vec<N::Addr>) {
    let mut random = Random(0x1234_5678_9abc_def1);
    let many: Vec<_> = (0..MANY).map(|_| make(&mut random)).collect();
    let asked = (0..ASKED).map(|_| match random.next() % 2 {
        0 => of(make(&mut random)),
        _ => of(many[random.next() as usize % MANY]),
    });
    let asked = asked.collect();
    (many, asked)
}

/// What a row of a column takes, the least of many columns.
fn column(name: &str, mut ask: impl FnMut() -> u64) {
    let least = (0..TRIES).map(|_| {
        let start = Instant::now();
        black_box(ask());
        start.elapsed().as_secs_f64() * 1e9 / ASKED as f64
    });
    println!("{name:<36} {:>6.1} ns", least.fold(f64::INFINITY, f64::min));
}

fn ask<N: Network>(family: &str, (many, asked): (Vec<N>, Vec<N::Addr>)) {
    let name = |call: &str| format!("{call}, {family}, this crate");
    let mut builder = AddressSetBuilder::<N>::default();
    many.iter().for_each(|network| builder.insert(*network));
    let set = builder.build();
    let frozen: FrozenSet<N> = set.freeze();
    measure(&name("set"), &asked, |addr| set.contains(*addr).into());
    measure(&name("frozen_set"), &asked, |addr| frozen.contains(*addr).into());
    let mut answers = vec![false; ASKED];
    column(&name("set_column"), || {
        frozen.contains_each(&asked, &mut answers);
        answers[1].into()
    });
    let map: PrefixMap<N, u32> = many.iter().copied().zip(0..).collect();
    measure(&name("map"), &asked, |addr| map.longest_match(*addr).map_or(0, |found| (*found.1).into()));
    let frozen: FrozenMap<N, u32> = map.freeze();
    measure(&name("frozen_map"), &asked, |addr| frozen.longest_match(*addr).map_or(0, |found| (*found.1).into()));
    let mut found = vec![None; ASKED];
    column(&name("map_column"), || {
        frozen.longest_each(&asked, &mut found);
        found[1].map_or(0, |found| (*found.1).into())
    });
}

fn main() {
    ask("IPv4", made(v4, |network| network.ip()));
    ask("IPv6", made(v6, |network| network.ip()));
}
