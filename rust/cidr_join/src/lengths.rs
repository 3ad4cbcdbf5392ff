// Written by scripts/plain out of crates/cidr_join/src/lengths.rt

//! Blocks of one length in each family.

use crate::found::Found;
use fosibegan_core::ipnetwork::{IpNetwork, Ipv4Network, Ipv6Network};

/// The lengths of the blocks in which lines are grouped.
#[derive(Clone, Copy, Debug, PartialEq, Eq)]
pub struct Lengths {
    /// The length of IPv4 blocks. A length above 32 counts as 32.
    pub v4: u8,
    /// The length of IPv6 blocks. A length above 128 counts as 128.
    pub v6: u8,
}

impl Lengths {
    /// Returns the block that contains a network, of the length for its family, if one does. Does
    /// not allocate.
    pub(crate) fn block<'a>(self, network: IpNetwork) -> Found<'a> {
        match network {
            IpNetwork::V4(network) => {
                let length = self.v4.min(32);
                if network.prefix() < length {
                    return Found::Nothing;
                }
                match Ipv4Network::block(network.ip(), length) {
                    Some(block) => Found::Network(IpNetwork::V4(block)),
                    None => unreachable!(),
                }
            }
            IpNetwork::V6(network) => {
                let length = self.v6.min(128);
                if network.prefix() < length {
                    return Found::Nothing;
                }
                match Ipv6Network::block(network.ip(), length) {
                    Some(block) => Found::Network(IpNetwork::V6(block)),
                    None => unreachable!(),
                }
            }
        }
    }
}
