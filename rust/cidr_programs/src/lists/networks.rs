// Written by scripts/plain out of crates/lists/src/networks.rt

//! Networks of one family, in the order in which they were read.

use fosibegan_core::plain_std::vec::Vec;
use fosibegan_core::ipnetwork_blocks::{AddressSpace, range_to_blocks};
use fosibegan_core::plain_std::alloc::{AllocError, Global};

/// Networks of one family, in the order in which they were read.
#[derive(Debug)]
pub(crate) struct Networks<N: AddressSpace> {
    networks: Vec<N>,
}

impl<N: AddressSpace> Networks<N> {
    /// Creates an empty list of networks.
    pub(crate) fn new(alloc: Global) -> Networks<N> {
        Networks {
            networks: Vec::new(alloc),
        }
    }

    /// Appends a network.
    pub(crate) fn push(&mut self, network: N) -> Result<(), AllocError> {
        self.networks.push(network)?;
        Ok(())
    }

    /// Appends the fewest blocks that have the addresses from `first` to `last`.
    pub(crate) fn push_range(&mut self, first: N::Addr, last: N::Addr) -> Result<(), AllocError> {
        // The clause `address` of this call says that `last` is an address of the family.
        let _ = N::block(last, N::WIDTH);
        let Some(mut blocks) = range_to_blocks::<N>(first, last) else {
            unreachable!()
        };
        while let Some(block) = blocks.next() {
            self.push(block)?;
        }
        Ok(())
    }

    /// Returns the networks, in their order.
    pub(crate) fn into_vec(self) -> Vec<N> {
        self.networks
    }
}
