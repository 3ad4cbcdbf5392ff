// Written by scripts/plain out of crates/ipnetwork_blocks/src/hosts.rt

//! The hosts of a network: its members, except those that are reserved for other uses.

use crate::ipnetwork_addr::Ipv4Addr;
use crate::ipnetwork_family::{Ipv4Network, Ipv6Network, Ipv6NetworkIterator};
use crate::plain_std::alloc::AllocError;

/// An iterator over the hosts of an IPv4 network, in ascending order.
///
/// ```
/// # use fosibegan_core::in_examples::*;
/// # ended(|| {
/// let mut hosts: Ipv4HostIterator = ipv4_hosts("192.0.2.0/24".parse()?);
/// assert_eq!(hosts.next(), Some(Ipv4Addr::new(192, 0, 2, 1)));
/// assert_eq!(hosts.count(), 253);
/// # Ok(())
/// # });
/// ```
#[derive(Debug)]
pub struct Ipv4HostIterator {
    last: u32,
    count: u32,
}

/// Returns the addresses that hosts of an IPv4 network may have, each once, in ascending order. Up
/// to prefix length 30 these are all members except the first and the last, whose host bits are all
/// zeros and all ones (RFC 1122, section 3.2.1.3). At 31 they are both members (RFC 3021), and at
/// 32 the only member.
///
/// ```
/// # use fosibegan_core::in_examples::*;
/// # ended(|| {
/// let mut hosts = ipv4_hosts("10.0.0.4/30".parse()?);
/// assert_eq!(hosts.next(), Some(Ipv4Addr::new(10, 0, 0, 5)));
/// # Ok(())
/// # });
/// ```
pub fn ipv4_hosts(network: Ipv4Network) -> Ipv4HostIterator {
    let first = u32::from(network.network());
    let last = u32::from(network.broadcast());
    if network.prefix() > 30 {
        return Ipv4HostIterator {
            last,
            count: last - first + 1,
        };
    }
    Ipv4HostIterator {
        last: last - 1,
        count: last - first - 1,
    }
}

/// Returns the addresses that hosts of an IPv6 network may have, each once, in ascending order. Up
/// to prefix length 126 these are all members except the first, the anycast address of the
/// network's routers (RFC 4291, section 2.6.1). At 127 they are both members (RFC 6164), and at 128
/// the only member.
///
/// ```
/// # use fosibegan_core::in_examples::*;
/// # ended(|| {
/// let mut hosts = ipv6_hosts("2001:db8::/64".parse()?);
/// assert_eq!(hosts.next(), Some("2001:db8::1".parse()?));
/// # Ok(())
/// # });
/// ```
pub fn ipv6_hosts(network: Ipv6Network) -> Ipv6NetworkIterator {
    let mut members = network.iter();
    if network.prefix() <= 126 {
        let _ = members.next();
    }
    members
}

impl Iterator for Ipv4HostIterator {
    type Item = Ipv4Addr;

    fn next(&mut self) -> Option<Ipv4Addr> {
        if self.count == 0 {
            return None;
        }
        self.count -= 1;
        Some(Ipv4Addr::from(self.last - self.count))
    }
}

impl Clone for Ipv4HostIterator {
    fn clone(&self) -> Self {
        crate::plain_std::made(|| -> Result<Self, AllocError> {
        Ok(Ipv4HostIterator { ..*self })
    })
    }
}
