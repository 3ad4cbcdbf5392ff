// Written by scripts/plain out of crates/ipnetwork_addr/src/ipv6_order.rt

//! Compares and hashes IPv6 addresses by their numbers.

use crate::ipnetwork_addr::Ipv6Addr;
use core::cmp::Ordering;
use core::hash::{Hash, Hasher};

impl PartialEq for Ipv6Addr {
    #[inline]
    fn eq(&self, other: &Ipv6Addr) -> bool {
        self.order(other).is_eq()
    }
}

impl Eq for Ipv6Addr {
}

impl Ord for Ipv6Addr {
    #[inline]
    fn cmp(&self, other: &Ipv6Addr) -> Ordering {
        self.order(other)
    }
}

impl PartialOrd for Ipv6Addr {
    #[inline]
    fn partial_cmp(&self, other: &Ipv6Addr) -> Option<Ordering> {
        Some(self.cmp(other))
    }
}

impl Hash for Ipv6Addr {
    #[inline]
    fn hash<H: Hasher>(&self, state: &mut H) {
        state.write(&self.octets_low_first());
    }
}
