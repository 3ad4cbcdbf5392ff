//! A library as others write it: it names the crate `ipnetwork` 0.21, and knows of no patch.

use ipnetwork::{IpNetwork, IpNetworkError};
use std::net::IpAddr;

/// The networks of a list, one in a line.
pub fn read(list: &str) -> Result<Vec<IpNetwork>, IpNetworkError> {
    list.lines().map(str::parse).collect()
}

/// The longest network of a list that has an address.
pub fn find(list: &[IpNetwork], address: IpAddr) -> Option<&IpNetwork> {
    list.iter()
        .filter(|network| network.contains(address))
        .max_by_key(|network| network.prefix())
}
