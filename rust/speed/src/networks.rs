//! Single calls on networks, beside the crates `ipnetwork` and `ipnet` and plain std.

use crate::call::{Call, compare};
use crate::measure::{Row, rows, texts};
use std::fmt::{Arguments, Write};
use std::hint::black_box;
use std::net::{Ipv4Addr, Ipv6Addr};

const OURS: &str = "fosibegan";
const THEIRS: &str = "ipnetwork";
const IPNET: &str = "ipnet";
const PLAIN: &str = "std";
/// How many networks there are: few, so that what takes time is the call, and not the memory.
const ROWS: usize = 512;
/// The members that an iteration is measured on.
const MEMBERS: usize = 1 << 16;

fn low_v4(address: Ipv4Addr) -> u64 {
    address.to_bits().into()
}

fn low_v6(address: Ipv6Addr) -> u64 {
    address.to_bits() as u64
}

/// The length of a text, printed into a string that has room.
fn printed(text: Arguments<'_>) -> u64 {
    thread_local! {
        static ROOM: std::cell::RefCell<String> = String::with_capacity(64).into();
    }
    ROOM.with_borrow_mut(|room| {
        room.clear();
        room.write_fmt(text).expect("a string takes every text");
        room.len() as u64
    })
}

/// The calls that each crate has, under its names. `$members` is the iteration over the network `$wide`, and `$by` says
/// how an address is passed.
macro_rules! shared {
    (
        $calls:ident, $by:expr, $family:literal, $rows:ident, $network:path, $low:ident,
        $prefix:ident, $mask:ident, $members:ident over $wide:literal, $($pass:tt)*
    ) => {
        let made = |row: &Row<_>| <$network>::new(row.address, row.prefix).unwrap();
        let networks: &[_] = $rows.iter().map(|row| (made(row), row.asked)).collect::<Vec<_>>().leak();
        let texts: &[_] = texts(&$rows).leak();
        let name = |call: &str| format!("{call}, {}", $family);
        $calls.push(Call::on(&name("parse"), $by, texts, |text| {
            text.parse::<$network>().unwrap().$prefix().into()
        }));
        $calls.push(Call::on(&name("Display"), $by, networks, |row| printed(format_args!("{}", row.0))));
        $calls.push(Call::on(&name("to_string"), $by, networks, |row| row.0.to_string().len() as u64));
        $calls.push(Call::on(&name("contains"), $by, networks, |row| row.0.contains($($pass)* row.1).into()));
        $calls.push(Call::on(&name("network"), $by, networks, |row| $low(row.0.network())));
        $calls.push(Call::on(&name("broadcast"), $by, networks, |row| $low(row.0.broadcast())));
        $calls.push(Call::on(&name("mask"), $by, networks, |row| $low(row.0.$mask())));
        let wide: $network = $wide.parse().unwrap();
        $calls.push(Call::new(&name("iteration"), $by, MEMBERS, move || {
            let mut sum = 0u64;
            for address in black_box(&wide).$members() {
                sum = sum.wrapping_add(black_box($low(address)));
            }
            sum
        }));
    };
}

/// Those that only ours and `ipnetwork` have.
macro_rules! of_two {
    ($calls:ident, $by:expr, $family:literal, $rows:ident, $network:path, $low:ident, $number:ident, $mask_to_prefix:path) => {
        let made = |row: &Row<_>| <$network>::new(row.address, row.prefix).unwrap();
        let networks: &[_] = $rows
            .iter()
            .map(|row| (made(row), row.asked))
            .collect::<Vec<_>>()
            .leak();
        let pairs: &[_] = networks
            .windows(2)
            .map(|pair| [pair[0].0, pair[1].0])
            .collect::<Vec<_>>()
            .leak();
        let masks: &[_] = networks
            .iter()
            .map(|row| row.0.mask())
            .collect::<Vec<_>>()
            .leak();
        let name = |call: &str| format!("{call}, {}", $family);
        $calls.push(Call::on(&name("new"), $by, &$rows, |row| {
            <$network>::new(row.address, row.prefix).map_or(0, |made| made.prefix().into())
        }));
        $calls.push(Call::on(&name("size"), $by, networks, |row| {
            row.0.size() as u64
        }));
        $calls.push(Call::on(&name("nth"), $by, networks, |row| {
            row.0.nth(row.0.prefix() as $number).map_or(0, $low)
        }));
        $calls.push(Call::on(
            &name("is_subnet_of"),
            $by,
            pairs,
            |[one, other]| one.is_subnet_of(*other).into(),
        ));
        $calls.push(Call::on(&name("overlaps"), $by, pairs, |[one, other]| {
            one.overlaps(*other).into()
        }));
        $calls.push(Call::on(&name("cmp"), $by, pairs, |[one, other]| {
            one.cmp(other) as u64
        }));
        $calls.push(Call::on(&name("mask_to_prefix"), $by, masks, |mask| {
            $mask_to_prefix(*mask).map_or(0, u64::from)
        }));
    };
}

/// Those of a network of either family.
macro_rules! of_either {
    ($calls:ident, $by:expr, $v4:ident, $v6:ident, $network:path) => {
        let four = $v4
            .iter()
            .map(|row| (row.address.into(), row.prefix, row.asked.into()));
        let six = $v6
            .iter()
            .map(|row| (row.address.into(), row.prefix, row.asked.into()));
        let mixed = four.zip(six).flat_map(|(four, six)| [four, six]);
        let networks =
            mixed.map(|(ip, prefix, asked)| (<$network>::new(ip, prefix).unwrap(), asked));
        let networks: &[(_, std::net::IpAddr)] = networks.collect::<Vec<_>>().leak();
        $calls.push(Call::on("contains, either", $by, networks, |row| {
            row.0.contains(row.1).into()
        }));
        $calls.push(Call::on("network, either", $by, networks, |row| {
            row.0.network().is_ipv4().into()
        }));
        $calls.push(Call::on("to_string, either", $by, networks, |row| {
            row.0.to_string().len() as u64
        }));
        let texts: &[_] = networks
            .iter()
            .map(|row| row.0.to_string())
            .collect::<Vec<_>>()
            .leak();
        $calls.push(Call::on("parse, either", $by, texts, |text| {
            text.parse::<$network>().unwrap().prefix().into()
        }));
    };
}

/// The same by masks and std's addresses.
macro_rules! by_hand {
    ($calls:ident, $family:literal, $rows:ident, $address:ident, $low:ident) => {
        let name = |call: &str| format!("{call}, {}", $family);
        $calls.push(Call::on(&name("contains"), PLAIN, &$rows, |row| {
            row.contains().into()
        }));
        $calls.push(Call::on(&name("network"), PLAIN, &$rows, |row| {
            $low($address::from_bits(row.address.to_bits() & !row.hosts()))
        }));
        $calls.push(Call::on(&name("broadcast"), PLAIN, &$rows, |row| {
            $low($address::from_bits(row.address.to_bits() | row.hosts()))
        }));
        $calls.push(Call::on(&name("mask"), PLAIN, &$rows, |row| {
            $low($address::from_bits(!row.hosts()))
        }));
        let texts: &[_] = texts(&$rows).leak();
        $calls.push(Call::on(&name("parse"), PLAIN, texts, |text| {
            let (address, prefix) = text.split_once('/').unwrap();
            black_box(address.parse::<$address>().unwrap());
            prefix.parse::<u8>().unwrap().into()
        }));
        $calls.push(Call::on(&name("Display"), PLAIN, &$rows, |row| {
            printed(format_args!("{}/{}", row.address, row.prefix))
        }));
        $calls.push(Call::on(&name("to_string"), PLAIN, &$rows, |row| {
            format!("{}/{}", row.address, row.prefix).len() as u64
        }));
    };
}

/// Measures them, and prints what they take.
pub fn networks(passes: usize) {
    let (mut v4, mut v6) = rows();
    v4.truncate(ROWS);
    v6.truncate(ROWS);
    let mut calls = Vec::new();
    macro_rules! each {
        ($by:expr, $v4:path, $v6:path, $prefix:ident, $mask:ident, $members:ident, $($pass:tt)*) => {
            shared!(calls, $by, "IPv4", v4, $v4, low_v4, $prefix, $mask, $members over "10.1.0.0/16", $($pass)*);
            shared!(calls, $by, "IPv6", v6, $v6, low_v6, $prefix, $mask, $members over "2001:db8::/112", $($pass)*);
        };
    }
    each!(
        OURS,
        fosibegan::Ipv4Network,
        fosibegan::Ipv6Network,
        prefix,
        mask,
        iter,
    );
    each!(
        THEIRS,
        ipnetwork::Ipv4Network,
        ipnetwork::Ipv6Network,
        prefix,
        mask,
        iter,
    );
    #[cfg(feature = "ipnet")]
    each!(IPNET, ipnet::Ipv4Net, ipnet::Ipv6Net, prefix_len, netmask, hosts, &);
    of_two!(
        calls,
        OURS,
        "IPv4",
        v4,
        fosibegan::Ipv4Network,
        low_v4,
        u32,
        fosibegan::ipv4_mask_to_prefix
    );
    of_two!(
        calls,
        OURS,
        "IPv6",
        v6,
        fosibegan::Ipv6Network,
        low_v6,
        u128,
        fosibegan::ipv6_mask_to_prefix
    );
    of_two!(
        calls,
        THEIRS,
        "IPv4",
        v4,
        ipnetwork::Ipv4Network,
        low_v4,
        u32,
        ipnetwork::ipv4_mask_to_prefix
    );
    of_two!(
        calls,
        THEIRS,
        "IPv6",
        v6,
        ipnetwork::Ipv6Network,
        low_v6,
        u128,
        ipnetwork::ipv6_mask_to_prefix
    );
    of_either!(calls, OURS, v4, v6, fosibegan::IpNetwork);
    of_either!(calls, THEIRS, v4, v6, ipnetwork::IpNetwork);
    by_hand!(calls, "IPv4", v4, Ipv4Addr, low_v4);
    by_hand!(calls, "IPv6", v6, Ipv6Addr, low_v6);
    // Of these the crates answer otherwise: `ipnet` leaves the network and the broadcast address out of an iteration, and
    // `ipnetwork` compares addresses with host bits.
    let differ = [
        "iteration, IPv4",
        "is_subnet_of, IPv4",
        "is_subnet_of, IPv6",
    ];
    compare(
        &mut calls,
        passes,
        &[OURS, THEIRS, IPNET, PLAIN],
        THEIRS,
        &differ,
    );
}
