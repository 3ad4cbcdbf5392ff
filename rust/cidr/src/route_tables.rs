// Written by scripts/plain out of crates/cidr/src/route_tables.rt

//! The routes that a run keeps.

use fosibegan_core::ipnetwork::{IpAddr, IpNetwork, Ipv4Network, Ipv6Network};
use fosibegan_core::ipnetwork_table::PrefixTable;
use fosibegan_core::plain_std::alloc::{AllocError, Global};

/// The numbers of blocks, in a table for each family.
pub(crate) struct RouteTables {
    v4: PrefixTable<Ipv4Network, u32>,
    v6: PrefixTable<Ipv6Network, u32>,
}

impl RouteTables {
    /// Creates tables without routes. Does not allocate.
    pub(crate) fn new(alloc: Global) -> RouteTables {
        RouteTables {
            v4: PrefixTable::new(alloc),
            v6: PrefixTable::new(alloc),
        }
    }

    /// Gives the block of a network a number, and returns the number that it had.
    ///
    /// Allocates only for a new block. If memory runs out, the routes do not change.
    pub(crate) fn insert(
        &mut self,
        network: IpNetwork,
        number: u32,
    ) -> Result<Option<u32>, AllocError> {
        match network {
            IpNetwork::V4(network) => Ok(self.v4.insert(network, number)?),
            IpNetwork::V6(network) => Ok(self.v6.insert(network, number)?),
        }
    }

    /// Removes the block of a network, and returns the number that it had.
    pub(crate) fn remove(&mut self, network: IpNetwork) -> Option<u32> {
        match network {
            IpNetwork::V4(network) => self.v4.remove(network),
            IpNetwork::V6(network) => self.v6.remove(network),
        }
    }

    /// Returns the longest block of the address's family that contains the address, with its
    /// number.
    pub(crate) fn find(&self, address: IpAddr) -> Option<(IpNetwork, u32)> {
        match address {
            IpAddr::V4(address) => {
                let (block, number) = self.v4.lookup(address)?;
                Some((IpNetwork::V4(block), number))
            }
            IpAddr::V6(address) => {
                let (block, number) = self.v6.lookup(address)?;
                Some((IpNetwork::V6(block), number))
            }
        }
    }
}
