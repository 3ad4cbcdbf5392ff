//! The networks of the crate [`fosibegan`] under the names of the crate `ipnetwork` 0.21.1. Put in the place of that
//! crate, it changes a program and all that the program depends on:
//!
//! ```toml
//! [patch.crates-io]
//! ipnetwork = { path = "rust/ipnetwork" }
//! ```
//!
//! The sets of addresses and the maps from networks to values of `fosibegan` come with it, for the same networks:
//!
//! ```
//! use ipnetwork::{AddressSet, IpNetwork, PrefixMap};
//! use std::net::IpAddr;
//!
//! let office: IpNetwork = "192.0.2.0/24".parse()?;
//! let guest: IpAddr = "192.0.2.77".parse()?;
//!
//! let mut allowed = AddressSet::new();
//! allowed.insert(office);
//! assert!(allowed.contains(guest.to_canonical()));
//!
//! let mut routes = PrefixMap::new();
//! routes.insert(office, "eth0");
//! assert_eq!(routes.longest_match(guest), Some((office, &"eth0")));
//! # Ok::<(), Box<dyn std::error::Error>>(())
//! ```
//!
//! Their other types, iterators among them, are in [`fosibegan`].
#![no_std]
#![deny(missing_docs)]
#![forbid(unsafe_code)]

pub use fosibegan;
#[doc(inline)]
pub use fosibegan::{
    AddressSet, FrozenMap, FrozenSet, IpNetwork, IpNetworkError, IpNetworkIterator, Ipv4Network,
    Ipv4NetworkIterator, Ipv6Network, Ipv6NetworkIterator, NetworkSize, NetworkSizeError,
    PrefixMap, ip_mask_to_prefix, ipv4_mask_to_prefix, ipv6_mask_to_prefix,
};
