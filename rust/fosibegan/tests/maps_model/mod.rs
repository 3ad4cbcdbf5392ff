//! What maps are compared with: networks as plain numbers, and a list that is gone through.
#![allow(dead_code)]

use fosibegan::{IpNetwork, Ipv4Network, Ipv6Network, Network};
use std::net::{IpAddr, Ipv4Addr, Ipv6Addr};

/// Numbers that are the same in each run.
pub struct Random(u64);

impl Random {
    pub fn new(seed: u64) -> Self {
        Random(seed.wrapping_mul(0x9e37_79b9_7f4a_7c15) | 1)
    }

    pub fn number(&mut self) -> u64 {
        self.0 ^= self.0 << 13;
        self.0 ^= self.0 >> 7;
        self.0 ^= self.0 << 17;
        self.0.wrapping_mul(0x2545_f491_4f6c_dd1d)
    }

    pub fn below(&mut self, end: u64) -> u64 {
        (self.number() >> 16) % end
    }

    pub fn wide(&mut self) -> u128 {
        u128::from(self.number()) << 64 | u128::from(self.number())
    }
}

/// A block as plain numbers; the order of these is that of networks.
#[derive(Clone, Copy, Debug, PartialEq, Eq, PartialOrd, Ord)]
pub struct Block {
    pub is_v6: bool,
    pub first: u128,
    pub prefix: u8,
}

pub fn width(is_v6: bool) -> u32 {
    if is_v6 { 128 } else { 32 }
}

impl Block {
    pub fn of(is_v6: bool, number: u128, prefix: u8) -> Self {
        let host_bits = width(is_v6) - u32::from(prefix);
        // At prefix length 0 of IPv6 nothing is kept, and there is no such shift.
        let kept = number.checked_shr(host_bits);
        let first = kept.map_or(0, |kept| kept << host_bits);
        Block {
            is_v6,
            first,
            prefix,
        }
    }

    pub fn has(&self, is_v6: bool, number: u128) -> bool {
        self.is_v6 == is_v6 && Block::of(is_v6, number, self.prefix) == *self
    }

    pub fn covers(&self, other: &Block) -> bool {
        self.prefix <= other.prefix && self.has(other.is_v6, other.first)
    }
}

/// A type of networks, made of numbers and read as numbers.
pub trait Tested: Network {
    const FAMILIES: &'static [bool];

    fn made(is_v6: bool, number: u128, prefix: u8) -> Self;
    fn address(is_v6: bool, number: u128) -> Self::Addr;

    fn of_block(block: Block) -> Self {
        Self::made(block.is_v6, block.first, block.prefix)
    }

    /// The network as it is: with its host bits, if it has any.
    fn numbers(self) -> Block {
        let either: IpNetwork = self.into();
        let (is_v6, first) = match either.ip() {
            IpAddr::V4(addr) => (false, u128::from(addr.to_bits())),
            IpAddr::V6(addr) => (true, addr.to_bits()),
        };
        Block {
            is_v6,
            first,
            prefix: either.prefix(),
        }
    }
}

pub fn v4(number: u128) -> Ipv4Addr {
    Ipv4Addr::from_bits(u32::try_from(number).unwrap())
}

impl Tested for Ipv4Network {
    const FAMILIES: &'static [bool] = &[false];

    fn made(_: bool, number: u128, prefix: u8) -> Self {
        Ipv4Network::new(v4(number), prefix).unwrap()
    }

    fn address(_: bool, number: u128) -> Ipv4Addr {
        v4(number)
    }
}

impl Tested for Ipv6Network {
    const FAMILIES: &'static [bool] = &[true];

    fn made(_: bool, number: u128, prefix: u8) -> Self {
        Ipv6Network::new(Ipv6Addr::from_bits(number), prefix).unwrap()
    }

    fn address(_: bool, number: u128) -> Ipv6Addr {
        Ipv6Addr::from_bits(number)
    }
}

impl Tested for IpNetwork {
    const FAMILIES: &'static [bool] = &[false, true];

    fn made(is_v6: bool, number: u128, prefix: u8) -> Self {
        if is_v6 {
            Ipv6Network::made(true, number, prefix).into()
        } else {
            Ipv4Network::made(false, number, prefix).into()
        }
    }

    fn address(is_v6: bool, number: u128) -> IpAddr {
        if is_v6 {
            Ipv6Addr::from_bits(number).into()
        } else {
            v4(number).into()
        }
    }
}

/// Where networks and addresses are taken from.
#[derive(Clone, Copy, Debug)]
pub enum Space {
    /// Among the first 256 addresses.
    First,
    /// Among the last 256 addresses.
    Last,
    /// Anywhere, but often next to each other.
    Whole,
}

pub const SPACES: [Space; 3] = [Space::First, Space::Last, Space::Whole];

impl Space {
    pub fn number(self, random: &mut Random, is_v6: bool) -> u128 {
        let greatest = if is_v6 {
            u128::MAX
        } else {
            u128::from(u32::MAX)
        };
        let low = u128::from(random.below(256));
        match self {
            Space::First => low,
            Space::Last => greatest - low,
            Space::Whole => match random.below(4) {
                0 => random.wide() & greatest,
                1 => (0x5a5a << (width(is_v6) - 16)) | low,
                2 => (greatest / 3) ^ (1 << random.below(u64::from(width(is_v6)))),
                _ => greatest / 3,
            },
        }
    }

    pub fn prefix(self, random: &mut Random, is_v6: bool) -> u8 {
        let width = u64::from(width(is_v6));
        let is_small = !matches!(self, Space::Whole) && random.below(8) > 0;
        let prefix = if is_small {
            width - random.below(9)
        } else {
            random.below(width + 1)
        };
        u8::try_from(prefix).unwrap()
    }

    pub fn block<N: Tested>(self, random: &mut Random) -> (Block, N) {
        let is_v6 = N::FAMILIES[random.below(N::FAMILIES.len() as u64) as usize];
        let number = self.number(random, is_v6);
        let prefix = self.prefix(random, is_v6);
        (
            Block::of(is_v6, number, prefix),
            N::made(is_v6, number, prefix),
        )
    }

    pub fn address<N: Tested>(self, random: &mut Random) -> (bool, u128, N::Addr) {
        let is_v6 = N::FAMILIES[random.below(N::FAMILIES.len() as u64) as usize];
        let number = self.number(random, is_v6);
        (is_v6, number, N::address(is_v6, number))
    }
}

/// A list of blocks with their values, in no order.
#[derive(Clone, Debug, Default)]
pub struct Model<V> {
    pub entries: Vec<(Block, V)>,
}

impl<V: Clone> Model<V> {
    pub fn place(&self, block: Block) -> Option<usize> {
        self.entries.iter().position(|entry| entry.0 == block)
    }

    pub fn get(&self, block: Block) -> Option<&V> {
        self.place(block).map(|place| &self.entries[place].1)
    }

    pub fn insert(&mut self, block: Block, value: V) -> Option<V> {
        let old = self.remove(block);
        self.entries.push((block, value));
        old
    }

    pub fn remove(&mut self, block: Block) -> Option<V> {
        self.place(block)
            .map(|place| self.entries.swap_remove(place).1)
    }

    pub fn sorted(&self) -> Vec<(Block, V)> {
        self.filtered(|_| true)
    }

    pub fn filtered(&self, is_in: impl Fn(&Block) -> bool) -> Vec<(Block, V)> {
        let mut entries: Vec<_> = self
            .entries
            .iter()
            .filter(|entry| is_in(&entry.0))
            .cloned()
            .collect();
        entries.sort_by_key(|entry| entry.0);
        entries
    }

    pub fn longest(&self, is_v6: bool, number: u128) -> Option<(Block, V)> {
        let having = self
            .entries
            .iter()
            .filter(|entry| entry.0.has(is_v6, number));
        having.max_by_key(|entry| entry.0.prefix).cloned()
    }
}

/// Entries as a map has them, as a model does.
pub fn read<'a, N: Tested, V: Clone + 'a>(
    entries: impl IntoIterator<Item = (N, &'a V)>,
) -> Vec<(Block, V)> {
    entries
        .into_iter()
        .map(|(network, value)| (network.numbers(), value.clone()))
        .collect()
}
