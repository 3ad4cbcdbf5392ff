//! Nanoseconds a call: through the crate `ipnetwork` of the patch, and by plain Rust over
//! `std::net`, on the same random networks as `bindings/c/speed.c`.

use ipnetwork::{Ipv4Network, Ipv6Network};
use std::cell::RefCell;
use std::fmt::Write;
use std::net::{Ipv4Addr, Ipv6Addr};

mod measure;

use measure::{measure, read, rows, texts};

fn low(address: Ipv4Addr) -> u64 {
    u32::from(address).into()
}

fn low_v6(address: Ipv6Addr) -> u64 {
    u128::from(address) as u64
}

fn main() {
    let buffer = RefCell::new(String::with_capacity(64));
    let printed = |text: std::fmt::Arguments<'_>| {
        let mut buffer = buffer.borrow_mut();
        buffer.clear();
        buffer.write_fmt(text).expect("a string takes every text");
        buffer.len() as u64
    };
    macro_rules! family {
        (
            $rows:expr, $family:literal, $network:ident, $address:ident, $width:literal,
            $low:ident
        ) => {
            let rows = $rows;
            let networks: Vec<_> = rows
                .iter()
                .map(|row| ($network::new(row.address, row.prefix).unwrap(), row.asked))
                .collect();
            let texts = texts(&rows);
            let name = |call: &str, by: &str| format!("{call}, {}, {by}", $family);
            let (own, plain) = ("this crate", "plain Rust");
            measure(&name("parse", own), &texts, |text| {
                text.parse::<$network>().unwrap().prefix().into()
            });
            measure(&name("parse", plain), &texts, |text| {
                read::<$address>(text, $width).unwrap().1.into()
            });
            measure(&name("print", own), &networks, |row| {
                printed(format_args!("{}", row.0))
            });
            measure(&name("print", plain), &rows, |row| {
                printed(format_args!("{}/{}", row.address, row.prefix))
            });
            measure(&name("contains", own), &networks, |row| {
                row.0.contains(row.1).into()
            });
            measure(&name("contains", plain), &rows, |row| row.contains().into());
            measure(&name("network", own), &networks, |row| {
                $low(row.0.network())
            });
            measure(&name("network", plain), &rows, |row| {
                $low($address::from_bits(row.address.to_bits() & !row.hosts()))
            });
            measure(&name("broadcast", own), &networks, |row| {
                $low(row.0.broadcast())
            });
            measure(&name("broadcast", plain), &rows, |row| {
                $low($address::from_bits(row.address.to_bits() | row.hosts()))
            });
        };
    }
    let (v4, v6) = rows();
    family!(v4, "IPv4", Ipv4Network, Ipv4Addr, 32, low);
    family!(v6, "IPv6", Ipv6Network, Ipv6Addr, 128, low_v6);
}
