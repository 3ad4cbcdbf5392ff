//! A program that keeps networks in JSON by the feature `serde` of the crate `ipnetwork` 0.21.

use ipnetwork::{IpNetwork, Ipv4Network, Ipv6Network};
use serde::{Deserialize, Serialize};

/// Networks as the fields of a struct.
#[derive(Debug, PartialEq, Deserialize, Serialize)]
pub struct Networks {
    pub ipnetwork: Vec<IpNetwork>,
    pub ipv4network: Ipv4Network,
    pub ipv6network: Option<Ipv6Network>,
}
