// Written by scripts/plain out of crates/ipnetwork/src/ip_iter.rt

//! The members of a network of either family, in order.

use crate::plain_std::KitClone;
use crate::ipnetwork_addr::IpAddr;
use crate::ipnetwork_family::{Ipv4NetworkIterator, Ipv6NetworkIterator};
use crate::plain_std::alloc::AllocError;

/// An iterator over the members of a network of either family, in ascending order.
///
/// ```
/// # use fosibegan_core::in_examples::*;
/// # ended(|| {
/// let mut members = "192.0.2.7/30".parse::<IpNetwork>()?.iter();
/// assert_eq!(members.next(), "192.0.2.4".parse().ok());
/// # Ok(())
/// # });
/// ```
#[derive(Debug)]
pub struct IpNetworkIterator {
    members: Members,
}

#[derive(Debug)]
enum Members {
    V4(Ipv4NetworkIterator),
    V6(Ipv6NetworkIterator),
}

impl IpNetworkIterator {
    /// Creates an iterator over the members of an IPv4 network.
    pub(crate) fn of_v4(members: Ipv4NetworkIterator) -> Self {
        IpNetworkIterator {
            members: Members::V4(members),
        }
    }

    /// Creates an iterator over the members of an IPv6 network.
    pub(crate) fn of_v6(members: Ipv6NetworkIterator) -> Self {
        IpNetworkIterator {
            members: Members::V6(members),
        }
    }

    /// The member that comes after `n` others: the last of those that `n + 1` calls of `next`
    /// return. `None` if at most `n` members are left; after that none is. Takes one step for any
    /// `n`.
    ///
    /// ```
    /// # use fosibegan_core::in_examples::*;
    /// # ended(|| {
    /// let mut members = "10.0.0.0/8".parse::<IpNetwork>()?.iter();
    /// assert_eq!(members.nth(65536), "10.1.0.0".parse().ok());
    /// assert_eq!(members.next(), "10.1.0.1".parse().ok());
    /// assert_eq!(members.nth(16_777_216), None);
    /// # Ok(())
    /// # });
    /// ```
    pub fn nth(&mut self, n: usize) -> Option<IpAddr> {
        match &mut self.members {
            Members::V4(members) => Some(IpAddr::V4(members.nth(n)?)),
            Members::V6(members) => Some(IpAddr::V6(members.nth(n)?)),
        }
    }
}

impl Iterator for IpNetworkIterator {
    type Item = IpAddr;

    fn next(&mut self) -> Option<IpAddr> {
        match &mut self.members {
            Members::V4(members) => Some(IpAddr::V4(members.next()?)),
            Members::V6(members) => Some(IpAddr::V6(members.next()?)),
        }
    }
}

impl Clone for IpNetworkIterator {
    fn clone(&self) -> Self {
        crate::plain_std::made(|| -> Result<Self, AllocError> {
        Ok(IpNetworkIterator {
            members: match &self.members {
                Members::V4(members) => Members::V4(members.kit_clone()?),
                Members::V6(members) => Members::V6(members.kit_clone()?),
            },
        })
    })
    }
}
