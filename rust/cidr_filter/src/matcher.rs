// Written by scripts/plain out of crates/cidr_filter/src/matcher.rt

//! The networks of the lists, and how addresses and networks are looked up in them.

use fosibegan_core::ipnetwork::{IpAddr, IpNetwork, Ipv4Network, Ipv6Network};
use fosibegan_core::ipnetwork_index::{AddressIndex, BlockIndex};
use fosibegan_core::ipnetwork_sets::{AddressSet, IpAddressSet};
use fosibegan_core::plain_std::alloc::{AllocError, Global};

/// The networks of the lists, stored for one kind of question.
pub enum Matcher {
    /// Sets of addresses, for the question whether an address is in the lists.
    Addresses(Sets),
    /// A set of addresses, for the question whether it covers a network.
    Networks(IpAddressSet),
    /// Tables of blocks, for the longest block that contains an address.
    Blocks(Tables),
}

impl Matcher {
    /// Returns whether lines are searched for networks as well as addresses.
    #[inline(always)]
    pub(crate) fn reads_networks(&self) -> bool {
        match self {
            Matcher::Networks(_) => true,
            Matcher::Addresses(_) | Matcher::Blocks(_) => false,
        }
    }
}

/// The addresses of networks, by family.
pub struct Sets {
    v4: AddressIndex<Ipv4Network>,
    v6: AddressIndex<Ipv6Network>,
}

/// The blocks of networks, by family.
pub struct Tables {
    pub(crate) v4: BlockIndex<Ipv4Network, ()>,
    pub(crate) v6: BlockIndex<Ipv6Network, ()>,
}

impl Sets {
    /// Builds the indexes of these sets. Returns `AllocError` if memory runs out.
    pub fn of(
        alloc: Global,
        v4: &AddressSet<Ipv4Network>,
        v6: &AddressSet<Ipv6Network>,
    ) -> Result<Sets, AllocError> {
        Ok(Sets {
            v4: AddressIndex::from_set(alloc, v4)?,
            v6: AddressIndex::from_set(alloc, v6)?,
        })
    }

    /// Returns whether the address is in one of the sets.
    #[inline(always)]
    pub(crate) fn contains(&self, address: IpAddr) -> bool {
        match address {
            IpAddr::V4(address) => self.v4.contains(address),
            IpAddr::V6(address) => self.v6.contains(address),
        }
    }
}

impl Sets {
    /// Returns whether the address is in one of the sets, or, if `mapped`, whether the IPv4 address
    /// of an IPv4-mapped one is.
    #[inline(always)]
    pub(crate) fn has_form(&self, address: IpAddr, mapped: bool) -> bool {
        if mapped {
            self.has_mapped(address)
        } else {
            self.contains(address)
        }
    }

    // The same if `mapped`.
    fn has_mapped(&self, address: IpAddr) -> bool {
        match address {
            IpAddr::V4(_) => self.contains(address),
            IpAddr::V6(_) => self.has_either(address.to_canonical(), address),
        }
    }

    // Returns whether one of two addresses is in one of the sets.
    fn has_either(&self, first: IpAddr, second: IpAddr) -> bool {
        if first == second {
            return self.contains(first);
        }
        self.contains(first) || self.contains(second)
    }

    /// The same as `has_form`, with a contract that states the result as a test.
    pub(crate) fn tests_form(&self, address: IpAddr, mapped: bool) -> bool {
        self.has_form(address, mapped)
    }
}

impl Tables {
    /// Builds the tables of the blocks of these networks. Returns `AllocError` if memory runs out.
    pub(crate) fn of(
        alloc: Global,
        v4: &[Ipv4Network],
        v6: &[Ipv6Network],
    ) -> Result<Tables, AllocError> {
        Ok(Tables {
            v4: BlockIndex::from_networks(alloc, v4, ())?,
            v6: BlockIndex::from_networks(alloc, v6, ())?,
        })
    }

    /// Returns the longest block that contains the address. If `mapped`, that of the IPv4 address
    /// of an IPv4-mapped one comes first. Returns `None` if no block contains either.
    pub(crate) fn told(&self, address: IpAddr, mapped: bool) -> Option<IpNetwork> {
        let asked = asked(mapped, address);
        match self.longest(asked) {
            Some(block) => Some(block),
            None => {
                if asked == address {
                    None
                } else {
                    self.longest(address)
                }
            }
        }
    }

    // Returns the longest block that contains the address, or `None` if none does.
    fn longest(&self, address: IpAddr) -> Option<IpNetwork> {
        match address {
            IpAddr::V4(address) => match self.v4.lookup(address) {
                Some((block, _)) => Some(IpNetwork::V4(block)),
                None => None,
            },
            IpAddr::V6(address) => match self.v6.lookup(address) {
                Some((block, _)) => Some(IpNetwork::V6(block)),
                None => None,
            },
        }
    }
}

/// Returns the address that is looked up first: if `mapped`, the IPv4 address of an IPv4-mapped
/// one.
#[inline(always)]
pub(crate) fn asked(mapped: bool, address: IpAddr) -> IpAddr {
    if mapped {
        address.to_canonical()
    } else {
        address
    }
}
