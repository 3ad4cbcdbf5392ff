//! What the measurements of this crate and those of the crate `ipnetwork` share: the random
//! networks of `bindings/c/speed.c`, how a call is measured, and reading by `std::net`.

use std::fmt::Display;
use std::hint::black_box;
use std::net::{Ipv4Addr, Ipv6Addr};
use std::str::FromStr;
use std::time::Instant;

const COUNT: usize = 4096;
const RUNS: usize = 100;
const TRIES: usize = 7;

/// Random numbers, the same in every run.
pub struct Random(pub u64);

impl Random {
    pub fn next(&mut self) -> u64 {
        self.0 ^= self.0 >> 12;
        self.0 ^= self.0 << 25;
        self.0 ^= self.0 >> 27;
        self.0.wrapping_mul(0x2545_f491_4f6c_dd1d)
    }
}

/// Nanoseconds a call, the least of several measurements.
pub fn measure<T>(name: &str, rows: &[T], call: impl Fn(&T) -> u64) {
    let least = (0..TRIES)
        .map(|_| {
            let start = Instant::now();
            let mut sum = 0u64;
            for _ in 0..RUNS {
                for row in rows {
                    sum = sum.wrapping_add(call(black_box(row)));
                }
            }
            black_box(sum);
            start.elapsed().as_secs_f64() * 1e9 / (RUNS * rows.len()) as f64
        })
        .fold(f64::INFINITY, f64::min);
    println!("{name:<36} {least:>6.1} ns");
}

/// An address and a prefix length of at most `width`, by std alone.
pub fn read<A: FromStr>(text: &str, width: u8) -> Option<(A, u8)> {
    let (address, prefix) = text.split_once('/')?;
    let prefix = prefix.parse().ok().filter(|prefix| *prefix <= width)?;
    Some((address.parse().ok()?, prefix))
}

/// A network, and an address that is a member of it in about half of the rows.
pub struct Row<Address> {
    pub address: Address,
    pub prefix: u8,
    pub asked: Address,
}

pub fn texts<Address: Display>(rows: &[Row<Address>]) -> Vec<String> {
    let text = |row: &Row<Address>| format!("{}/{}", row.address, row.prefix);
    rows.iter().map(text).collect()
}

impl Row<Ipv4Addr> {
    /// Its host bits, as ones.
    pub fn hosts(&self) -> u32 {
        u32::MAX.checked_shr(self.prefix.into()).unwrap_or(0)
    }

    pub fn contains(&self) -> bool {
        (u32::from(self.asked) ^ u32::from(self.address)) & !self.hosts() == 0
    }
}

impl Row<Ipv6Addr> {
    /// Its host bits, as ones.
    pub fn hosts(&self) -> u128 {
        u128::MAX.checked_shr(self.prefix.into()).unwrap_or(0)
    }

    pub fn contains(&self) -> bool {
        (u128::from(self.asked) ^ u128::from(self.address)) & !self.hosts() == 0
    }
}

pub fn rows() -> (Vec<Row<Ipv4Addr>>, Vec<Row<Ipv6Addr>>) {
    let mut random = Random(0x1234_5678_9abc_def1);
    let mut v4 = Vec::new();
    let mut v6 = Vec::new();
    for _ in 0..COUNT {
        let address = Ipv4Addr::from((random.next() >> 32) as u32);
        let prefix = (random.next() % 33) as u8;
        let mut row = Row {
            address,
            prefix,
            asked: address,
        };
        let flip = (random.next() as u32 & 1) << 31;
        row.asked = Ipv4Addr::from((u32::from(address) | row.hosts()) ^ flip);
        v4.push(row);
        let address = Ipv6Addr::from([0u16; 8].map(|_| {
            if random.next() % 5 < 2 {
                0
            } else {
                (random.next() >> 48) as u16
            }
        }));
        let prefix = (random.next() % 129) as u8;
        let mut row = Row {
            address,
            prefix,
            asked: address,
        };
        let flip = u128::from(random.next() & 1) << 127;
        row.asked = Ipv6Addr::from((u128::from(address) | row.hosts()) ^ flip);
        v6.push(row);
    }
    (v4, v6)
}
