//! IP networks in CIDR notation, sets of addresses, and maps with longest-prefix match, over the
//! address types of `std::net`.
//!
//! IPv4 and IPv6 work together in one set or map, or each on its own. The answers are right at the
//! edges too: at prefix length 0, at 255.255.255.255, and for networks with host bits.
//!
//! An allow list, read from what people write:
//!
//! ```
//! use fosibegan::{AddressSet, IpNetwork};
//! use std::net::IpAddr;
//!
//! let allowed: AddressSet = ["10.0.0.0/8", "192.0.2.7", "2001:db8::/32"]
//!     .iter()
//!     .map(|text| text.parse::<IpNetwork>())
//!     .collect::<Result<_, _>>()?;
//!
//! // A socket that listens for both families reports 10.1.2.3 as ::ffff:10.1.2.3.
//! let client: IpAddr = "::ffff:10.1.2.3".parse()?;
//! assert!(allowed.contains(client.to_canonical()));
//! assert!(!allowed.contains("192.0.2.8".parse()?));
//! # Ok::<(), Box<dyn std::error::Error>>(())
//! ```
//!
//! # What to use
//!
//! | To | Use |
//! |---|---|
//! | allow or deny addresses by a list | [`AddressSet`]; [`FrozenSet`] once it no longer changes |
//! | compare, merge or subtract lists | [`union`], [`intersection`], [`difference`], [`complement`], or `\| & - ^ !` on sets |
//! | find the most specific network that contains an address: routes, zones, owners | [`PrefixMap`]; [`FrozenMap`] once it no longer changes |
//! | keep a ledger: which part of a pool is in use, and what is free | [`first_free`], [`free_in`], [`largest_free`] |
//! | ask about one network: first and last address, mask, members | [`IpNetwork`], [`Ipv4Network`], [`Ipv6Network`] |
//! | split and merge networks | [`subnets`], [`supernet`], [`exclude`], [`hosts`], [`aggregate`] |
//! | turn a range of addresses into networks, and back | [`summarize`], [`AddressSet::ranges`] |
//! | read texts, and say what is wrong with one | [`str::parse`], [`IpNetwork::cause_of`] |
//! | count addresses exactly | [`AddressSet::address_count`] |
//! | write code for any of the three types of networks | [`Network`] |
//!
//! [`union`]: AddressSet::union
//! [`intersection`]: AddressSet::intersection
//! [`difference`]: AddressSet::difference
//! [`complement`]: AddressSet::complement
//! [`first_free`]: AddressSet::first_free
//! [`free_in`]: AddressSet::free_in
//! [`largest_free`]: AddressSet::largest_free
//! [`subnets`]: IpNetwork::subnets
//! [`supernet`]: IpNetwork::supernet
//! [`exclude`]: IpNetwork::exclude
//! [`hosts`]: IpNetwork::hosts
//! [`aggregate`]: IpNetwork::aggregate
//! [`summarize`]: IpNetwork::summarize
//!
//! A set or a map of [`IpNetwork`] holds both families. `AddressSet<Ipv4Network>` holds IPv4 alone,
//! and its `contains` takes an `Ipv4Addr`. `AddressSet::new()` and `PrefixMap::new()` are for both families;
//! a set or map of one family is made by `default()`, `collect()` or `from`, and names its type.
//!
//! # IPv4-mapped addresses
//!
//! `::ffff:10.1.2.3` is the form that 10.1.2.3 takes on an IPv6 socket. It is an IPv6 address, so it
//! is in no IPv4 network: a deny list with `10.0.0.0/8` does not stop it. Pass `addr.to_canonical()`,
//! which turns it into 10.1.2.3 and leaves every other address as it is.
//!
//! If a deny list may itself have networks in the mapped form, such as `::ffff:10.0.0.0/104`, use
//! [`AddressSet::contains_mapped`]: `::ffff:10.1.2.3` is then denied if either form of it is in the
//! list. [`PrefixMap::longest_match_mapped`] tries both forms too. For an allow list, stay with
//! `to_canonical()`: otherwise `::/0`, which contains all mapped addresses, lets in every IPv4 client
//! of such a socket.
//!
//! # Texts
//!
//! A network is written as an address, a `/`, and a prefix length or, for IPv4, a mask: `10.1.2.3/8`,
//! `10.1.2.3/255.0.0.0`, `2001:db8::/32`. An address alone is a network of that one address. Host
//! bits are kept: `10.1.2.3/8` is printed as it was read, and contains the same addresses as
//! `10.0.0.0/8`. Octets with leading zeros, zones (`%eth0`), ports and brackets are refused.
//!
//! # Features
//!
//! None is on by default. The crate is `no_std`, with `alloc`, and needs Rust 1.85.
//!
//! | Feature | Has |
//! |---|---|
//! | `serde` | `Serialize` and `Deserialize`: networks are texts in formats that people read, and bytes in others; sets and maps are lists |
//! | `schemars` | `JsonSchema` of the networks, for `schemars` 0.8 |
//! | `proptest` | `Arbitrary` for networks, sets and maps |
//!
//! # How far to trust it
//!
//! * **Made of proved sources, and tested:** the crate `fosibegan_core` reads and prints networks,
//!   and has the sets, the longest match, the indexes, blocks and aggregation. It is what remains of
//!   a library with contracts once the contracts are removed. That library is proved: a machine has
//!   checked that each function meets its contract. What `rustc` builds from it here is not proved.
//! * **Written by hand, and tested:** this crate, which gives those answers the types and traits of
//!   `std`. Questions about one network are answered here, so that they are `const` and need no
//!   conversion: `new`, `new_checked`, `with_netmask`, `ip`, `prefix`, `mask`, `network`, `broadcast`,
//!   `range`, `contains`, `size`, `nth`, `is_subnet_of`, `is_supernet_of`, `overlaps`, `block`,
//!   `supernet`, `next`, `previous`, comparisons, and the prefix lengths of masks. A test compares
//!   each with the core, at every prefix length, at both ends of the address space, and on ten
//!   million random pairs. The addresses of `iter` and `hosts`, the ranges and the symmetric
//!   difference of sets, and the values and the order of maps are handled here too. Tests compare
//!   them, and sets, with a `BTreeSet` of addresses and with linear searches.
//! * **Trusted:** `rustc`, LLVM, `core` and `alloc`, and the script that removes the contracts.
//!   This crate forbids unsafe code. The core has a small module of it, for vector instructions;
//!   `RUSTFLAGS="--cfg portable"` leaves all but one line of it out.
//!
//! # Coming from other crates
//!
//! [`migration`] has a page each for those who know `ipnet`, `ipnetwork`, or `std::net` alone.
#![no_std]
#![deny(missing_docs)]
#![forbid(unsafe_code)]

extern crate alloc;

mod convert;
mod error;
mod map;
mod network;
mod set;

pub use error::{IpNetworkError, NetworkSizeError, WrongFamilyError};
pub use map::{FrozenMap, PrefixMap};
pub use network::{
    Exclude, Hosts, IpNetwork, IpNetworkIterator, Ipv4Network, Ipv4NetworkIterator, Ipv6Network,
    Ipv6NetworkIterator, Network, NetworkSize, Subnets, Summarize, ip_mask_to_prefix,
    ipv4_mask_to_prefix, ipv6_mask_to_prefix,
};
pub use set::{AddressCount, AddressSet, AddressSetBuilder, Addresses, FrozenSet};

/// The iterators of [`AddressSet`].
pub mod address_set {
    pub use crate::set::{
        Complement, Difference, FreeIn, Intersection, IntoNetworks, Networks, Ranges,
        SymmetricDifference, Union,
    };
}

/// The iterators of [`PrefixMap`] and [`FrozenMap`], and the entries of [`PrefixMap::entry`].
pub mod prefix_map {
    pub use crate::map::{
        CoveredBy, Covering, Entry, IntoIter, IntoKeys, IntoValues, Iter, IterMut, Keys,
        OccupiedEntry, VacantEntry, Values, ValuesMut,
    };
}

/// For those who know another crate: what has which name here, and what to watch.
///
/// These pages exist only in the documentation.
#[cfg(any(doc, doctest))]
pub mod migration {
    #[doc = include_str!("../docs/from_ipnet.md")]
    pub mod from_ipnet {}
    #[doc = include_str!("../docs/from_ipnetwork.md")]
    pub mod from_ipnetwork {}
    #[doc = include_str!("../docs/from_std.md")]
    pub mod from_std {}
}
