// Written by scripts/plain out of crates/cidr_merge/src/query.rt

//! The addresses and networks that are sought in lists.

use fosibegan_core::plain_std::vec::Vec;
use fosibegan_core::plain_std::string::String;
use crate::sought::{Sought, network_in};
use crate::sought_places::Places;
use fosibegan_core::ipnetwork::IpNetwork;
use cidr_programs::lists::EntryFault;
use fosibegan_core::plain_std::alloc::Global;

/// The networks that are sought; an address is a network of one address.
pub(crate) struct Query {
    /// The networks, in the order in which they are printed.
    pub sought: Vec<Sought>,
    /// The places of the IPv4 networks.
    pub v4: Places,
    /// The places of the IPv6 networks.
    pub v6: Places,
}

/// Why words are not accepted as addresses and networks.
#[derive(Clone, Copy, Debug, PartialEq, Eq)]
pub(crate) enum QueryFault {
    /// The word at this index is none, or a network with host bits.
    Wrong(usize, EntryFault),
    /// Out of memory.
    OutOfMemory,
}

/// Returns the networks that these words name; the first of the words has the index `first`.
pub(crate) fn networks_of(
    alloc: Global,
    words: &[String],
    first: usize,
) -> Result<Vec<IpNetwork>, QueryFault> {
    let mut networks = Vec::new(alloc);
    for place in 0..words.len() {
        let network = match network_in(words[place].as_bytes()) {
            Ok(network) => network,
            Err(fault) => return Err(QueryFault::Wrong(first + place, fault)),
        };
        let Ok(_) = networks.push(network) else {
            return Err(QueryFault::OutOfMemory);
        };
    }
    Ok(networks)
}
