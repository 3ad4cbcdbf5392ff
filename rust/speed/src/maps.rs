//! Maps from networks to values, beside the tables of the core: asked, made, and changed.

use crate::call::{Call, compare};
use crate::sets::{of_core, v4, v6};
use fosibegan::{FrozenMap, IpNetwork, Network, PrefixMap};
use fosibegan_core::plain_std::alloc::Global;
use fosibegan_core::{PrefixTable, RouteIndex};
use std::hint::black_box;
use std::net::IpAddr;

const OURS: &str = "fosibegan";
const CORE: &str = "core";

/// What is asked of a map of ours: by the map, frozen, and by a column.
fn ours<'a, N: Network>(
    calls: &mut Vec<Call<'a>>,
    kind: &str,
    networks: &[N],
    asked: &'a [N::Addr],
    prefix: fn(N) -> u8,
) {
    let entries = networks
        .iter()
        .zip(0u32..)
        .map(|(network, value)| (*network, value));
    let map: PrefixMap<N, u32> = entries.collect();
    let frozen: &FrozenMap<N, u32> = Box::leak(Box::new(map.clone().freeze()));
    let map: &PrefixMap<N, u32> = Box::leak(Box::new(map));
    let name = |call: &str| format!("{call}, {kind}");
    let summed = move |(network, value): (N, &u32)| u64::from(prefix(network)) + u64::from(*value);
    calls.push(Call::on(&name("longest_match"), OURS, asked, move |addr| {
        map.longest_match(*addr).map_or(0, summed)
    }));
    calls.push(Call::on(&name("frozen"), OURS, asked, move |addr| {
        frozen.longest_match(*addr).map_or(0, summed)
    }));
    let mut answers = vec![None; asked.len()];
    calls.push(Call::new(&name("column"), OURS, asked.len(), move || {
        frozen.longest_each(asked, &mut answers);
        answers.iter().flatten().map(|found| summed(*found)).sum()
    }));
}

/// The same of the core.
macro_rules! core_calls {
    ($calls:ident, $kind:expr, $networks:ident, $asked:ident) => {
        let asked: &[_] = of_core($asked).leak();
        let mut table = PrefixTable::new(Global);
        for (network, value) in of_core(&$networks).into_iter().zip(0u32..) {
            table.insert(network, value).expect("memory");
        }
        let entries: Vec<_> = table.iter().collect();
        let index: &_ = Box::leak(Box::new(
            RouteIndex::from_entries(Global, &entries).expect("memory"),
        ));
        let table: &_ = Box::leak(Box::new(table));
        let name = |call: &str| format!("{call}, {}", $kind);
        $calls.push(Call::on(&name("longest_match"), CORE, asked, |addr| {
            table.lookup(*addr).map_or(0, |(network, value)| {
                u64::from(network.prefix()) + u64::from(value)
            })
        }));
        $calls.push(Call::on(&name("frozen"), CORE, asked, |addr| {
            index.lookup(*addr).map_or(0, |(network, value)| {
                u64::from(network.prefix()) + u64::from(value)
            })
        }));
        let mut answers = vec![None; asked.len()];
        $calls.push(Call::new(&name("column"), CORE, asked.len(), move || {
            index.lookup_each(asked, &mut answers);
            answers
                .iter()
                .flatten()
                .map(|(network, value)| u64::from(network.prefix()) + u64::from(*value))
                .sum()
        }));
    };
}

/// Maps made of entries, frozen and taken apart, and values replaced.
fn making<'a>(calls: &mut Vec<Call<'a>>, count: usize) {
    let (networks, _) = v4(count);
    let core: &'static [_] = of_core(&networks).leak();
    let networks: &'static [_] = networks.leak();
    let name = |call: &str| format!("{call}, {count}");
    let made = move || {
        networks
            .iter()
            .copied()
            .zip(0u32..)
            .collect::<PrefixMap<_, u32>>()
    };
    let made_by_core = move || {
        let mut table = PrefixTable::new(Global);
        for (network, value) in core.iter().zip(0u32..) {
            table.insert(*network, value).expect("memory");
        }
        table
    };
    calls.push(Call::new(&name("made"), OURS, count, move || {
        made().len() as u64
    }));
    calls.push(Call::new(&name("made"), CORE, count, move || {
        made_by_core().len() as u64
    }));
    calls.push(Call::new(
        &name("made and frozen"),
        OURS,
        count,
        move || black_box(made().freeze()).len() as u64,
    ));
    calls.push(Call::new(
        &name("made and frozen"),
        CORE,
        count,
        move || {
            let index = RouteIndex::from_table(Global, made_by_core()).expect("memory");
            black_box(index).table().len() as u64
        },
    ));
    let mut map = made();
    calls.push(Call::new(&name("insert"), OURS, count, move || {
        networks
            .iter()
            .map(|network| map.insert(*network, 1).map_or(0, |_| 1))
            .sum()
    }));
    let mut table = made_by_core();
    calls.push(Call::new(&name("insert"), CORE, count, move || {
        core.iter()
            .map(|network| table.insert(*network, 1).expect("memory").map_or(0, |_| 1))
            .sum()
    }));
    let map: &'static _ = Box::leak(Box::new(made()));
    let table: &'static _ = Box::leak(Box::new(made_by_core()));
    calls.push(Call::new(&name("get"), OURS, count, move || {
        networks
            .iter()
            .map(|network| map.get(*network).map_or(0, |value| u64::from(*value)))
            .sum()
    }));
    calls.push(Call::new(&name("get"), CORE, count, move || {
        core.iter()
            .map(|network| table.get(*network).map_or(0, u64::from))
            .sum()
    }));
    calls.push(Call::new(&name("iter"), OURS, map.len(), move || {
        map.iter().map(|(_, value)| u64::from(*value)).sum()
    }));
    calls.push(Call::new(&name("iter"), CORE, map.len(), move || {
        table.iter().map(|(_, value)| u64::from(value)).sum()
    }));
}

/// Measures them, and prints what they take.
pub fn maps(passes: usize) {
    let mut calls = Vec::new();
    let (of_v4, asked_v4) = v4(10_000);
    let (of_v6, asked_v6) = v6(10_000);
    let (asked_v4, asked_v6): (&'static [_], &'static [_]) = (asked_v4.leak(), asked_v6.leak());
    ours(&mut calls, "IPv4", &of_v4, asked_v4, |network| {
        network.prefix()
    });
    core_calls!(calls, "IPv4", of_v4, asked_v4);
    ours(&mut calls, "IPv6", &of_v6, asked_v6, |network| {
        network.prefix()
    });
    core_calls!(calls, "IPv6", of_v6, asked_v6);
    let four = of_v4.iter().map(|network| IpNetwork::V4(*network));
    let both: Vec<_> = four
        .chain(of_v6.iter().map(|network| IpNetwork::V6(*network)))
        .collect();
    let pairs = asked_v4.iter().zip(asked_v6);
    let asked = pairs.flat_map(|(four, six)| [IpAddr::V4(*four), IpAddr::V6(*six)]);
    ours(
        &mut calls,
        "either",
        &both,
        asked.collect::<Vec<_>>().leak(),
        |network| network.prefix(),
    );
    compare(&mut calls, passes, &[OURS, CORE], CORE, &[]);
    for (count, passes) in [
        (10_000, passes.div_ceil(10)),
        (400_000, passes.div_ceil(100)),
    ] {
        let mut calls = Vec::new();
        making(&mut calls, count);
        compare(&mut calls, passes, &[OURS, CORE], CORE, &[]);
    }
}
