//! The three types of networks, by family and number; and random numbers, the same in each run.

use fosibegan::{IpNetwork, Ipv4Network, Ipv6Network, Network};
use std::net::{IpAddr, Ipv4Addr, Ipv6Addr};

#[derive(Clone, Copy, Debug, PartialEq, Eq, PartialOrd, Ord)]
pub enum Family {
    V4,
    V6,
}

impl Family {
    pub fn width(self) -> u8 {
        match self {
            Family::V4 => 32,
            Family::V6 => 128,
        }
    }

    pub fn greatest(self) -> u128 {
        u128::MAX >> (128 - self.width())
    }

    /// The numbers of the first and the last address of a network.
    pub fn block(self, number: u128, prefix: u8) -> (u128, u128) {
        let hosts = self.greatest().checked_shr(prefix.into()).unwrap_or(0);
        (number & !hosts, number | hosts)
    }
}

pub trait Space: Network {
    const FAMILIES: &'static [Family];

    fn addr(family: Family, number: u128) -> Self::Addr;
    fn number(addr: Self::Addr) -> (Family, u128);
    fn net(family: Family, number: u128, prefix: u8) -> Self;

    /// The family and the numbers of the first and the last address of a network that a set
    /// returned, which has no host bits.
    fn ends(self) -> (Family, u128, u128) {
        let network: IpNetwork = self.into();
        let (family, number) = IpNetwork::number(network.ip());
        let (first, last) = family.block(number, network.prefix());
        assert_eq!(number, first, "{self} has host bits");
        (family, first, last)
    }
}

fn v4(number: u128) -> Ipv4Addr {
    Ipv4Addr::from_bits(number.try_into().unwrap())
}

impl Space for Ipv4Network {
    const FAMILIES: &'static [Family] = &[Family::V4];

    fn addr(_: Family, number: u128) -> Ipv4Addr {
        v4(number)
    }

    fn number(addr: Ipv4Addr) -> (Family, u128) {
        (Family::V4, addr.to_bits().into())
    }

    fn net(_: Family, number: u128, prefix: u8) -> Self {
        Ipv4Network::new(v4(number), prefix).unwrap()
    }
}

impl Space for Ipv6Network {
    const FAMILIES: &'static [Family] = &[Family::V6];

    fn addr(_: Family, number: u128) -> Ipv6Addr {
        Ipv6Addr::from_bits(number)
    }

    fn number(addr: Ipv6Addr) -> (Family, u128) {
        (Family::V6, addr.to_bits())
    }

    fn net(_: Family, number: u128, prefix: u8) -> Self {
        Ipv6Network::new(Ipv6Addr::from_bits(number), prefix).unwrap()
    }
}

impl Space for IpNetwork {
    const FAMILIES: &'static [Family] = &[Family::V4, Family::V6];

    fn addr(family: Family, number: u128) -> IpAddr {
        match family {
            Family::V4 => v4(number).into(),
            Family::V6 => Ipv6Addr::from_bits(number).into(),
        }
    }

    fn number(addr: IpAddr) -> (Family, u128) {
        match addr {
            IpAddr::V4(addr) => Ipv4Network::number(addr),
            IpAddr::V6(addr) => Ipv6Network::number(addr),
        }
    }

    fn net(family: Family, number: u128, prefix: u8) -> Self {
        IpNetwork::new(Self::addr(family, number), prefix).unwrap()
    }
}

/// Numbers by the generator SplitMix64.
pub struct Random(pub u64);

impl Random {
    pub fn next(&mut self) -> u64 {
        self.0 = self.0.wrapping_add(0x9e37_79b9_7f4a_7c15);
        let mixed = (self.0 ^ (self.0 >> 30)).wrapping_mul(0xbf58_476d_1ce4_e5b9);
        let mixed = (mixed ^ (mixed >> 27)).wrapping_mul(0x94d0_49bb_1331_11eb);
        mixed ^ (mixed >> 31)
    }

    pub fn below(&mut self, bound: usize) -> usize {
        (self.next() % bound as u64) as usize
    }

    pub fn of<T: Copy>(&mut self, choices: &[T]) -> T {
        choices[self.below(choices.len())]
    }

    /// A number of the family, often near the ends of the family or with long runs of equal bits.
    pub fn number(&mut self, family: Family) -> u128 {
        let number = u128::from(self.next()) << 64 | u128::from(self.next());
        let number = match self.below(4) {
            0 => number,
            1 => number >> self.below(128),
            2 => !(number >> self.below(128)),
            _ => number << self.below(128),
        };
        number & family.greatest()
    }
}

#[test]
fn the_block_of_a_number() {
    assert_eq!(Family::V4.block(7, 0), (0, 0xffff_ffff));
    assert_eq!(Family::V4.block(7, 30), (4, 7));
    assert_eq!(Family::V4.block(7, 32), (7, 7));
    assert_eq!(Family::V6.block(7, 0), (0, u128::MAX));
    assert_eq!(Family::V6.block(7, 128), (7, 7));
}
