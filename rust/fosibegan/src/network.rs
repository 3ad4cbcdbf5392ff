//! The networks, and the trait of their three types.

mod conversions;
mod exclude;
mod hosts;
mod ip;
mod ip_blocks;
mod ipv4;
mod ipv4_blocks;
mod ipv6;
mod ipv6_blocks;
mod masks;
mod members;
#[cfg(feature = "proptest")]
mod proptest;
#[cfg(feature = "schemars")]
mod schemars;
pub(crate) mod sealed;
#[cfg(feature = "serde")]
mod serde;
mod size;
mod subnets;
mod summarize;
mod text;
mod together;

pub use exclude::Exclude;
pub use hosts::Hosts;
pub use ip::IpNetwork;
pub use ipv4::Ipv4Network;
pub use ipv6::Ipv6Network;
pub use masks::{ip_mask_to_prefix, ipv4_mask_to_prefix, ipv6_mask_to_prefix};
pub use members::{IpNetworkIterator, Ipv4NetworkIterator, Ipv6NetworkIterator};
pub use sealed::Network;
pub use size::NetworkSize;
pub use subnets::Subnets;
pub use summarize::Summarize;
