//! Random addresses, networks and texts, and what reading a text has to answer by `std::net` alone:
//! what the tests of this crate and those of the crate `ipnetwork` share.

use std::env;
use std::net::{Ipv4Addr, Ipv6Addr};

/// Why a text names no network.
#[derive(Clone, Copy, Debug, PartialEq, Eq)]
pub enum Cause {
    Format,
    Address,
    Prefix,
}

/// The generator xorshift64*, of period 2^64 - 1.
pub struct Random(pub u64);

impl Random {
    pub fn next(&mut self) -> u64 {
        self.0 ^= self.0 >> 12;
        self.0 ^= self.0 << 25;
        self.0 ^= self.0 >> 27;
        self.0.wrapping_mul(0x2545_f491_4f6c_dd1d)
    }

    pub fn below(&mut self, n: usize) -> usize {
        ((self.next() >> 32) as usize) % n
    }

    /// A number with many zero bits, or many ones, or neither.
    fn number(&mut self) -> u128 {
        let any = |r: &mut Self| u128::from(r.next()) << 64 | u128::from(r.next());
        match self.below(4) {
            0 => any(self) & any(self) & any(self) & any(self),
            1 => any(self) | any(self) | any(self) | any(self),
            _ => any(self),
        }
    }

    pub fn v4(&mut self) -> Ipv4Addr {
        Ipv4Addr::from(self.number() as u32)
    }

    /// An address of which some groups are zeros, and some are mapped or compatible IPv4 addresses.
    pub fn v6(&mut self) -> Ipv6Addr {
        let mut groups = Ipv6Addr::from(self.number()).segments();
        let zeros = self.next();
        for (at, group) in groups.iter_mut().enumerate() {
            if zeros >> at & 1 == 1 {
                *group = 0;
            }
        }
        let address = u128::from(Ipv6Addr::from(groups));
        match self.below(8) {
            0 => Ipv6Addr::from(0xffff_0000_0000 | address & 0xffff_ffff),
            1 => Ipv6Addr::from(address & 0xffff_ffff),
            _ => Ipv6Addr::from(address),
        }
    }
}

pub fn seed(other: u64) -> u64 {
    let seed = env::var("IPNETWORK_SEED").map_or(1, |text| text.parse().expect("a number"));
    other ^ u64::wrapping_mul(seed, 0x9e37_79b9_7f4a_7c15) | 1
}

pub fn rows() -> usize {
    env::var("IPNETWORK_ROWS").map_or(1_000_000, |text| text.parse().expect("a number"))
}

fn text_of_v6(random: &mut Random, address: Ipv6Addr) -> String {
    let groups = address.segments();
    match random.below(5) {
        0 => groups.map(|group| format!("{group:04X}")).join(":"),
        1 => groups.map(|group| format!("{group:x}")).join(":"),
        2 => {
            let [a, b, c, d] = Ipv4Addr::from(u128::from(address) as u32).octets();
            let front: Vec<String> = groups[..6]
                .iter()
                .map(|group| format!("{group:x}"))
                .collect();
            format!("{}:{a}.{b}.{c}.{d}", front.join(":"))
        }
        _ => address.to_string(),
    }
}

fn suffix(random: &mut Random, width: u32) -> String {
    match random.below(8) {
        0 => String::new(),
        1 => format!("/+{}", random.below(width as usize + 9)),
        2 => format!("/{:05}", random.below(width as usize + 9)),
        3 => format!(
            "/{}",
            Ipv4Addr::from(mask(32, random.below(33) as u32) as u32)
        ),
        4 => format!("/{}", random.v4()),
        _ => format!("/{}", random.below(width as usize + 3)),
    }
}

const BYTES: &[u8] = b"0123456789abcdefABCDEF..::://+- x%[]g\0\xc3\xff";

fn mutate(random: &mut Random, text: &mut Vec<u8>) {
    for _ in 0..1 + random.below(3) {
        let byte = BYTES[random.below(BYTES.len())];
        let place = random.below(text.len() + 1);
        match random.below(3) {
            0 => text.insert(place, byte),
            1 if place < text.len() => text[place] = byte,
            _ if place < text.len() => drop(text.remove(place)),
            _ => text.push(byte),
        }
    }
}

/// A text that names a network of either family, or nearly so; one that is mutated often names
/// none.
pub fn random_text(random: &mut Random, mutated: bool) -> Vec<u8> {
    let mut text = if random.below(2) == 0 {
        let address = random.v4();
        format!("{address}{}", suffix(random, 32))
    } else {
        let address = random.v6();
        let text = text_of_v6(random, address);
        format!("{text}{}", suffix(random, 128))
    }
    .into_bytes();
    if mutated {
        mutate(random, &mut text);
    }
    text
}

/// The number of `width` bits whose first `prefix` are ones.
pub fn mask(width: u32, prefix: u32) -> u128 {
    let all = u128::MAX >> (128 - width);
    all & !all.checked_shr(prefix).unwrap_or(0)
}

pub fn host(width: u32, prefix: u8) -> u128 {
    u128::MAX >> (128 - width) & !mask(width, u32::from(prefix))
}

/// A number of `width` bits that shares about its first bits with another, so that questions have
/// both answers.
pub fn near(random: &mut Random, width: u32, other: u128) -> u128 {
    let kept = random.below(width as usize + 1) as u32;
    (other & mask(width, kept) | random.number() & !mask(width, kept))
        & (u128::MAX >> (128 - width))
}

/// An optional plus and decimal digits, at most `width`.
fn number(text: &str, width: u32) -> Option<u8> {
    let digits = text.strip_prefix('+').unwrap_or(text);
    if digits.is_empty() || !digits.bytes().all(|byte| byte.is_ascii_digit()) {
        return None;
    }
    let digits = digits.trim_start_matches('0');
    let number: u32 = if digits.is_empty() {
        0
    } else {
        digits.parse().ok()?
    };
    (number <= width).then_some(number as u8)
}

/// What reading has to answer, by `std::net`: an address, a slash, and a number or a mask.
fn reference<A: std::str::FromStr>(
    text: &[u8],
    width: u32,
    suffix: impl Fn(&str) -> Option<u8>,
) -> Result<(A, u8), Cause> {
    let parts: Vec<&[u8]> = text.split(|byte| *byte == b'/').collect();
    if parts.len() > 2 {
        return Err(Cause::Format);
    }
    let address = std::str::from_utf8(parts[0])
        .ok()
        .and_then(|text| text.parse().ok());
    let address = address.ok_or(Cause::Address)?;
    match parts.get(1) {
        None => Ok((address, width as u8)),
        Some(part) => {
            let prefix = std::str::from_utf8(part).ok().and_then(suffix);
            Ok((address, prefix.ok_or(Cause::Prefix)?))
        }
    }
}

fn suffix_v4(text: &str) -> Option<u8> {
    number(text, 32).or_else(|| {
        let given = u32::from(text.parse::<Ipv4Addr>().ok()?);
        (0..=32).find(|prefix| mask(32, u32::from(*prefix)) == u128::from(given))
    })
}

pub fn network_v4(text: &[u8]) -> Result<(Ipv4Addr, u8), Cause> {
    reference(text, 32, suffix_v4)
}

pub fn network_v6(text: &[u8]) -> Result<(Ipv6Addr, u8), Cause> {
    reference(text, 128, |text| number(text, 128))
}
