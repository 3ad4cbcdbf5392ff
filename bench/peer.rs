//! What `cidr` does, in plain Rust over `std::net`: the program with which `bench/measure` compares it.
//!
//! It takes lines from standard input and writes an answer to each, as docs/man/cidr.1 says. Routes are kept in
//! `BTreeMap`s, or in `HashMap`s if the first argument is `hash`.

use std::collections::{BTreeMap, HashMap};
use std::fmt::{self, Display};
use std::hash::Hash;
use std::io::{self, BufRead, BufReader, BufWriter, Write};
use std::net::{IpAddr, Ipv4Addr, Ipv6Addr};
use std::str::FromStr;

const PIECE: usize = 65_536;
const LONGEST_LINE: usize = 1_024;

/// Why a text names no network of one family.
enum Fault {
    Format,
    Address,
    Prefix,
}

/// What a network asks of its addresses. Each family computes with its own width of numbers.
trait Address: Copy + Ord + Hash + Display + FromStr {
    const WIDTH: u8;

    /// The address with 1 in the first bits, so many, and 0 in the others.
    fn mask(prefix: u8) -> Self;
    fn and(self, mask: Self) -> Self;
    fn or_not(self, mask: Self) -> Self;
    /// How many addresses have the same first bits; at prefix length 0 one less.
    fn count(prefix: u8) -> u128;

    /// The prefix length of a mask that is written as an address, if the family has such.
    fn prefix_of_mask(_text: &str) -> Option<u8> {
        None
    }
}

impl Address for Ipv4Addr {
    const WIDTH: u8 = 32;

    fn mask(prefix: u8) -> Self {
        Ipv4Addr::from(u32::MAX.checked_shl(32 - u32::from(prefix)).unwrap_or(0))
    }
    fn and(self, mask: Self) -> Self {
        Ipv4Addr::from(u32::from(self) & u32::from(mask))
    }
    fn or_not(self, mask: Self) -> Self {
        Ipv4Addr::from(u32::from(self) | !u32::from(mask))
    }
    fn count(prefix: u8) -> u128 {
        u128::from((!u32::from(Self::mask(prefix))).saturating_add(1))
    }
    fn prefix_of_mask(text: &str) -> Option<u8> {
        let mask: Ipv4Addr = text.parse().ok()?;
        let prefix = u32::from(mask).leading_ones() as u8;
        (Self::mask(prefix) == mask).then_some(prefix)
    }
}

impl Address for Ipv6Addr {
    const WIDTH: u8 = 128;

    fn mask(prefix: u8) -> Self {
        Ipv6Addr::from(u128::MAX.checked_shl(128 - u32::from(prefix)).unwrap_or(0))
    }
    fn and(self, mask: Self) -> Self {
        Ipv6Addr::from(u128::from(self) & u128::from(mask))
    }
    fn or_not(self, mask: Self) -> Self {
        Ipv6Addr::from(u128::from(self) | !u128::from(mask))
    }
    fn count(prefix: u8) -> u128 {
        (!u128::from(Self::mask(prefix))).saturating_add(1)
    }
}

#[derive(Clone, Copy, PartialEq, Eq, PartialOrd, Ord, Hash)]
struct Network<A> {
    address: A,
    prefix: u8,
}

impl<A: Address> Network<A> {
    fn read(text: &str) -> Result<Self, Fault> {
        let (address, suffix) = match text.split_once('/') {
            Some((_, suffix)) if suffix.contains('/') => return Err(Fault::Format),
            Some((address, suffix)) => (address, Some(suffix)),
            None => (text, None),
        };
        let address = address.parse().map_err(|_| Fault::Address)?;
        let prefix = match suffix {
            None => A::WIDTH,
            Some(text) => match text.parse() {
                Ok(prefix) if prefix <= A::WIDTH => prefix,
                _ => A::prefix_of_mask(text).ok_or(Fault::Prefix)?,
            },
        };
        Ok(Network { address, prefix })
    }

    fn first(&self) -> A {
        self.address.and(A::mask(self.prefix))
    }

    fn last(&self) -> A {
        self.address.or_not(A::mask(self.prefix))
    }

    fn has(&self, address: A) -> bool {
        address.and(A::mask(self.prefix)) == self.first()
    }

    fn lies_in(&self, other: &Self) -> bool {
        other.prefix <= self.prefix && other.has(self.address)
    }

    /// The network without host bits.
    fn block(&self) -> Self {
        Network {
            address: self.first(),
            prefix: self.prefix,
        }
    }

    fn write_ends(&self, out: &mut impl Write) -> io::Result<()> {
        let (mask, count) = (A::mask(self.prefix), A::count(self.prefix));
        writeln!(out, "{} {} {mask} {count}", self.first(), self.last())
    }

    fn relation(&self, other: &Self) -> &'static str {
        match (self.lies_in(other), other.lies_in(self)) {
            (true, true) => "same",
            (true, false) => "inside",
            (false, true) => "around",
            (false, false) => "apart",
        }
    }
}

impl<A: Display> Display for Network<A> {
    fn fmt(&self, f: &mut fmt::Formatter<'_>) -> fmt::Result {
        write!(f, "{}/{}", self.address, self.prefix)
    }
}

/// A network of either family.
enum Either {
    V4(Network<Ipv4Addr>),
    V6(Network<Ipv6Addr>),
}

impl Either {
    fn read(text: &str) -> Option<Self> {
        match Network::read(text) {
            Ok(network) => Some(Either::V4(network)),
            Err(_) => Network::read(text).ok().map(Either::V6),
        }
    }

    fn has(&self, address: IpAddr) -> bool {
        match (self, address) {
            (Either::V4(network), IpAddr::V4(address)) => network.has(address),
            (Either::V6(network), IpAddr::V6(address)) => network.has(address),
            _ => false,
        }
    }

    fn relation(&self, other: &Self) -> &'static str {
        match (self, other) {
            (Either::V4(a), Either::V4(b)) => a.relation(b),
            (Either::V6(a), Either::V6(b)) => a.relation(b),
            _ => "apart",
        }
    }
}

/// A map of std from blocks to numbers.
trait Map<K>: Default {
    fn number(&self, key: &K) -> Option<u32>;
    fn set(&mut self, key: K, number: u32) -> Option<u32>;
    fn take(&mut self, key: &K) -> Option<u32>;
}

impl<K: Ord> Map<K> for BTreeMap<K, u32> {
    fn number(&self, key: &K) -> Option<u32> {
        self.get(key).copied()
    }
    fn set(&mut self, key: K, number: u32) -> Option<u32> {
        self.insert(key, number)
    }
    fn take(&mut self, key: &K) -> Option<u32> {
        self.remove(key)
    }
}

impl<K: Hash + Eq> Map<K> for HashMap<K, u32> {
    fn number(&self, key: &K) -> Option<u32> {
        self.get(key).copied()
    }
    fn set(&mut self, key: K, number: u32) -> Option<u32> {
        self.insert(key, number)
    }
    fn take(&mut self, key: &K) -> Option<u32> {
        self.remove(key)
    }
}

/// The routes of one family, and how many of them have each prefix length.
struct Routes<M> {
    numbers: M,
    used: [u32; 129],
}

impl<M> Routes<M> {
    fn new() -> Self
    where
        M: Default,
    {
        Routes {
            numbers: M::default(),
            used: [0; 129],
        }
    }

    fn add<A: Address>(&mut self, network: &Network<A>, number: u32) -> &'static str
    where
        M: Map<Network<A>>,
    {
        match self.numbers.set(network.block(), number) {
            Some(_) => "changed",
            None => {
                self.used[usize::from(network.prefix)] += 1;
                "new"
            }
        }
    }

    fn drop<A: Address>(&mut self, network: &Network<A>) -> &'static str
    where
        M: Map<Network<A>>,
    {
        match self.numbers.take(&network.block()) {
            None => "absent",
            Some(_) => {
                self.used[usize::from(network.prefix)] -= 1;
                "dropped"
            }
        }
    }

    /// Asks for each prefix length in use, the longest first.
    fn find<A: Address>(&self, address: A) -> Option<(Network<A>, u32)>
    where
        M: Map<Network<A>>,
    {
        let used = (0..=A::WIDTH)
            .rev()
            .filter(|prefix| self.used[usize::from(*prefix)] > 0);
        used.map(|prefix| Network { address, prefix }.block())
            .find_map(|block| self.numbers.number(&block).map(|number| (block, number)))
    }
}

/// The answer to a question that has one word.
fn write_line(out: &mut impl Write, text: &str) -> io::Result<()> {
    out.write_all(text.as_bytes())?;
    out.write_all(b"\n")
}

fn membership(out: &mut impl Write, network_named: bool, answer: Option<bool>) -> io::Result<()> {
    write_line(
        out,
        match answer {
            _ if !network_named => "refused network",
            None => "refused address",
            Some(true) => "yes",
            Some(false) => "no",
        },
    )
}

fn read_one<A: Address>(out: &mut impl Write, text: &str) -> io::Result<()> {
    match Network::<A>::read(text) {
        Ok(network) => writeln!(out, "{network}"),
        Err(Fault::Format) => write_line(out, "refused format"),
        Err(Fault::Address) => write_line(out, "refused address"),
        Err(Fault::Prefix) => write_line(out, "refused prefix"),
    }
}

fn found<A: Address>(out: &mut impl Write, route: Option<(Network<A>, u32)>) -> io::Result<()> {
    match route {
        Some((block, number)) => writeln!(out, "{block} {number}"),
        None => write_line(out, "none"),
    }
}

struct Program<M4, M6> {
    v4: Routes<M4>,
    v6: Routes<M6>,
}

impl<M4: Map<Network<Ipv4Addr>>, M6: Map<Network<Ipv6Addr>>> Program<M4, M6> {
    fn answer(&mut self, line: &str, out: &mut impl Write) -> io::Result<()> {
        let mut words = line.split(' ');
        let words = (
            words.next().unwrap_or(""),
            words.next(),
            words.next(),
            words.next(),
        );
        match words {
            ("read", Some(text), None, None) => match Either::read(text) {
                Some(Either::V4(network)) => writeln!(out, "{network}"),
                Some(Either::V6(network)) => writeln!(out, "{network}"),
                None => write_line(out, "refused"),
            },
            ("read4", Some(text), None, None) => read_one::<Ipv4Addr>(out, text),
            ("read6", Some(text), None, None) => read_one::<Ipv6Addr>(out, text),
            ("ends", Some(text), None, None) => match Either::read(text) {
                Some(Either::V4(network)) => network.write_ends(out),
                Some(Either::V6(network)) => network.write_ends(out),
                None => write_line(out, "refused"),
            },
            ("has", Some(text), Some(address), None) => {
                let network = Either::read(text);
                let answer = network
                    .as_ref()
                    .and_then(|it| Some(it.has(address.parse().ok()?)));
                membership(out, network.is_some(), answer)
            }
            ("has4", Some(text), Some(address), None) => {
                let network = Network::<Ipv4Addr>::read(text).ok();
                let answer = network
                    .as_ref()
                    .and_then(|it| Some(it.has(address.parse().ok()?)));
                membership(out, network.is_some(), answer)
            }
            ("rel", Some(a), Some(b), None) => match (Either::read(a), Either::read(b)) {
                (Some(a), Some(b)) => write_line(out, a.relation(&b)),
                _ => write_line(out, "refused"),
            },
            ("add", Some(text), Some(number), None) => match (Either::read(text), number.parse()) {
                (Some(Either::V4(network)), Ok(number)) => write_line(out, self.v4.add(&network, number)),
                (Some(Either::V6(network)), Ok(number)) => write_line(out, self.v6.add(&network, number)),
                _ => write_line(out, "refused"),
            },
            ("drop", Some(text), None, None) => match Either::read(text) {
                Some(Either::V4(network)) => write_line(out, self.v4.drop(&network)),
                Some(Either::V6(network)) => write_line(out, self.v6.drop(&network)),
                None => write_line(out, "refused"),
            },
            ("find", Some(address), None, None) => match address.parse() {
                Ok(IpAddr::V4(address)) => found(out, self.v4.find(address)),
                Ok(IpAddr::V6(address)) => found(out, self.v6.find(address)),
                Err(_) => write_line(out, "refused"),
            },
            _ => write_line(out, "unknown command"),
        }
    }

    fn run(mut self) -> io::Result<()> {
        let mut input = BufReader::with_capacity(PIECE, io::stdin().lock());
        let mut out = BufWriter::with_capacity(PIECE, io::stdout().lock());
        let mut line = Vec::new();
        while input.read_until(b'\n', &mut line)? > 0 {
            if line.last() == Some(&b'\n') {
                line.pop();
                if line.last() == Some(&b'\r') {
                    line.pop();
                }
            }
            if line.len() > LONGEST_LINE {
                write_line(&mut out, "line too long")?;
            } else {
                // what is no UTF-8 names nothing, and no more does the character that stands for it
                self.answer(&String::from_utf8_lossy(&line), &mut out)?;
            }
            line.clear();
        }
        out.flush()
    }
}

fn main() -> io::Result<()> {
    if std::env::args().nth(1).as_deref() == Some("hash") {
        Program::<HashMap<_, _>, HashMap<_, _>> {
            v4: Routes::new(),
            v6: Routes::new(),
        }
        .run()
    } else {
        Program::<BTreeMap<_, _>, BTreeMap<_, _>> {
            v4: Routes::new(),
            v6: Routes::new(),
        }
        .run()
    }
}
