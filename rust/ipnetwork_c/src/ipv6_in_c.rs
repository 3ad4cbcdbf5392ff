// Written by scripts/plain out of crates/ipnetwork_c/src/ipv6_in_c.rt

//! The struct of an IPv6 network: the network that it holds, its order, and its use in lists and
//! columns.

use crate::fault::{self, OK, PREFIX};
use crate::listed::Listed;
use crate::numbered::Numbered;
use crate::printed_columns::PrintsRow;
use crate::search_hint::SearchHint;
use crate::structs::{Ipv6InC, address_of, number_of};
use crate::text_columns::ReadsRow;
use fosibegan_core::plain_std::arrayvec::ArrayString;
use fosibegan_core::ipnetwork::{Ipv6Addr, Ipv6Network, NETWORK_TEXT_CAPACITY};
use fosibegan_core::ipnetwork_blocks::HoldsNetwork;
use core::cmp::Ordering;

impl Ipv6InC {
    /// Returns the struct that holds a network.
    pub(crate) fn of(network: &Ipv6Network) -> Self {
        Ipv6InC {
            address: network.ip().octets(),
            prefix: network.prefix(),
        }
    }

    /// Returns the network, or `None` if the prefix length is greater than 128.
    pub(crate) fn network(&self) -> Option<Ipv6Network> {
        Ipv6Network::new_checked(address_of(&self.address), self.prefix)
    }

    /// Returns whether an address of 16 octets is in the network, or `None` if the prefix length is
    /// greater than 128.
    pub(crate) fn contains(&self, address: &[u8; 16]) -> Option<bool> {
        if self.prefix > 128 {
            return None;
        }
        Some(self.has(address))
    }

    /// The same for a struct whose prefix length was checked.
    #[inline(always)]
    pub(crate) fn has(&self, address: &[u8; 16]) -> bool {
        match self.network() {
            Some(network) => network.contains(address_of(address)),
            None => unreachable!(),
        }
    }
}

impl Ord for Ipv6InC {
    fn cmp(&self, other: &Ipv6InC) -> Ordering {
        let first = number_of(&self.address);
        let second = number_of(&other.address);
        first.cmp(&second).then(self.prefix.cmp(&other.prefix))
    }
}

impl PartialOrd for Ipv6InC {
    fn partial_cmp(&self, other: &Ipv6InC) -> Option<Ordering> {
        Some(self.cmp(other))
    }
}

impl PartialEq for Ipv6InC {
    fn eq(&self, other: &Ipv6InC) -> bool {
        self.cmp(other).is_eq()
    }
}

impl Eq for Ipv6InC {
}

impl HoldsNetwork<Ipv6Network> for Ipv6InC {
    const CHECKED: bool = true;

    fn held_network(self) -> Ipv6Network {
        match Ipv6InC::network(&self) {
            Some(network) => network,
            None => unreachable!(),
        }
    }

    fn holding(network: Ipv6Network) -> Ipv6InC {
        let _ = network.ip();
        Ipv6InC::of(&network)
    }
}

impl Listed<Ipv6Network> for Ipv6InC {
    fn own_address(&self) -> Ipv6Addr {
        address_of(&self.address)
    }

    fn fits(&self) -> bool {
        self.prefix <= 128
    }
}

impl Numbered<Ipv6Network> for Ipv6InC {
    type Number = u128;

    type Octets = [u8; 16];

    fn own_number(&self) -> u128 {
        number_of(&self.address)
    }

    fn number_of(addr: Ipv6Addr) -> u128 {
        u128::from(addr)
    }

    #[inline(always)]
    fn number_in(octets: &[u8; 16]) -> u128 {
        number_of(octets)
    }

    #[inline(always)]
    fn address_in(octets: &[u8; 16]) -> Ipv6Addr {
        address_of(octets)
    }

    fn is_up_to(first: u128, second: u128) -> bool {
        first <= second
    }

    fn has(&self, number: u128) -> bool {
        let own = number_of(&self.address);
        if self.prefix == 0 {
            return true;
        }
        let host_bits = u32::from(128 - self.prefix);
        number >> host_bits == own >> host_bits
    }

    fn part_of(number: u128, base: u128, shift: u32) -> usize {
        let part = number.saturating_sub(base) >> shift;
        part.min(usize::MAX as u128) as usize
    }

    fn half() -> u32 {
        127
    }
}

impl SearchHint<Ipv6Network> for Ipv6InC {
    #[inline(always)]
    fn seems_up_to(&self, number: u128) -> bool {
        (number_of(&self.address) >> 64) as u64 <= (number >> 64) as u64
    }
}

impl ReadsRow for Ipv6InC {
    fn read_row(&mut self, text: &[u8]) -> u32 {
        match Ipv6Network::read_bytes(text) {
            Ok(read) => {
                *self = Ipv6InC::of(&read);
                OK
            }
            Err(cause) => fault::number_of(cause),
        }
    }
}

impl PrintsRow for Ipv6InC {
    fn row_fault(&self) -> u32 {
        if self.prefix <= 128 { OK } else { PREFIX }
    }

    fn row_text(&self) -> ArrayString<NETWORK_TEXT_CAPACITY> {
        match self.network() {
            Some(network) => network.canonical(),
            None => unreachable!(),
        }
    }
}
