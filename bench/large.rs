//! Writes what `bench/large` measures on: `large log COUNT`, `large networks COUNT`, `large values COUNT`, a line each.
//! A quarter of the lines of a log have IPv6 addresses. Networks are of IPv4, of 24 to 32 bits and without host bits; those
//! with values lie in one /24 each, so that none occurs twice. All is random, the same in every run.

use std::io::{self, BufWriter, Write};
use std::net::{Ipv4Addr, Ipv6Addr};

struct Random(u64);

impl Random {
    fn next(&mut self) -> u64 {
        self.0 ^= self.0 << 13;
        self.0 ^= self.0 >> 7;
        self.0 ^= self.0 << 17;
        self.0
    }
}

const ASKED: [&str; 4] = ["GET /index.html", "GET /images/logo.png", "POST /api/v1/items", "GET /favicon.ico"];

/// The octets from 1 to 223, at which networks begin.
fn begins_well(number: u32) -> bool {
    (1..224).contains(&(number >> 24))
}

fn log(out: &mut impl Write, count: u64) -> io::Result<()> {
    let mut random = Random(0x9e37_79b9_7f4a_7c15);
    for row in 0..count {
        let (one, other) = (random.next(), random.next());
        if row % 4 == 0 {
            let bits = 0x2001_0db8 << 96 | u128::from(one >> 32) << 64 | u128::from(other as u16);
            write!(out, "{}", Ipv6Addr::from(bits))?;
        } else {
            write!(out, "{}", Ipv4Addr::from((one >> 32) as u32))?;
        }
        let (minute, second) = (row / 60 % 60, row % 60);
        write!(out, " - - [26/Nov/2025:06:{minute:02}:{second:02} +0000] \"{}", ASKED[row as usize & 3])?;
        let size = other >> 16 & 65535;
        writeln!(out, " HTTP/1.1\" 200 {size} \"-\" \"Mozilla/5.0 (X11; Linux x86_64) Firefox/{}.0\"", one & 63)?;
    }
    Ok(())
}

fn networks(out: &mut impl Write, count: u64) -> io::Result<()> {
    let mut random = Random(0x2545_f491_4f6c_dd1d);
    let mut left = count;
    while left > 0 {
        let number = random.next();
        let prefix = 24 + (number % 9) as u32;
        let first = (number >> 32) as u32 >> (32 - prefix) << (32 - prefix);
        if begins_well(first) {
            writeln!(out, "{}/{prefix}", Ipv4Addr::from(first))?;
            left -= 1;
        }
    }
    Ok(())
}

fn values(out: &mut impl Write, count: u64) -> io::Result<()> {
    let mut random = Random(0x2545_f491_4f6c_dd1d);
    // An odd number of steps comes to each /24 once.
    let blocks = (0..1u32 << 24).map(|at| at.wrapping_mul(0x9e_3779) << 8).filter(|block| begins_well(*block));
    for (at, block) in blocks.take(count as usize).enumerate() {
        let number = random.next();
        let prefix = 24 + (number % 9) as u32;
        let first = (block | (number >> 32) as u32 & 255) >> (32 - prefix) << (32 - prefix);
        writeln!(out, "{}/{prefix}\tsite {}", Ipv4Addr::from(first), at % 5000)?;
    }
    Ok(())
}

fn main() -> io::Result<()> {
    let words: Vec<_> = std::env::args().skip(1).collect();
    let count = words.get(1).and_then(|word| word.parse().ok()).expect("a COUNT");
    let mut out = BufWriter::with_capacity(1 << 20, io::stdout().lock());
    match words[0].as_str() {
        "log" => log(&mut out, count)?,
        "networks" => networks(&mut out, count)?,
        "values" => values(&mut out, count)?,
        other => panic!("{other}: it is log, networks or values"),
    }
    out.flush()
}
