// Written by scripts/plain out of crates/ipnetwork_blocks/src/aggregate_ip.rt

//! The least list of blocks with the same union as networks of either family.

use crate::plain_std::vec::Vec;
use crate::ipnetwork_blocks::aggregate::aggregate_held;
use crate::ipnetwork::{IpNetwork, Ipv4Network, Ipv6Network};

/// Replaces the networks with the aggregate of the IPv4 networks followed by the aggregate of the
/// IPv6 networks, at the front of the slice, and returns the number of blocks. Each family is
/// aggregated as by `aggregate_in_place`. The rest of the slice holds unspecified networks.
///
/// Sorts each family and makes one pass over it.
///
/// ```
/// # use fosibegan_core::in_examples::*;
/// # ended(|| {
/// let mut networks: [IpNetwork; 3] = ["2001:db8::/32".parse()?, "10.128.0.0/9".parse()?, "10.0.0.0/9".parse()?];
/// assert_eq!(aggregate_ip_in_place(&mut networks), 2);
/// assert_eq!(&networks[..2], ["10.0.0.0/8".parse()?, "2001:db8::/32".parse()?].as_slice());
/// # Ok(())
/// # });
/// ```
pub fn aggregate_ip_in_place(networks: &mut [IpNetwork]) -> usize {
    let v4_count = put_v4_first(networks);
    let (v4, v6) = networks.split_at_mut(v4_count);
    let v4_blocks = aggregate_held::<Ipv4Network, IpNetwork>(v4);
    let v6_blocks = aggregate_held::<Ipv6Network, IpNetwork>(v6);
    networks.copy_within(v4_count..v4_count + v6_blocks, v4_blocks);
    v4_blocks + v6_blocks
}

/// Replaces the networks with the aggregate of the IPv4 networks followed by the aggregate of the
/// IPv6 networks: the blocks that `aggregate_ip_in_place` puts at the front. Frees no memory: the
/// capacity does not change.
///
/// ```
/// # use fosibegan_core::in_examples::*;
/// # use fosibegan_core::plain_std::vec;
/// # ended(|| {
/// let mut networks = vec![in Global; "2001:db8::/32".parse::<IpNetwork>()?, "10.0.0.0/8".parse()?]?;
/// aggregate_ip_vec(&mut networks);
/// assert_eq!(networks.as_slice(), ["10.0.0.0/8".parse()?, "2001:db8::/32".parse()?].as_slice());
/// # Ok(())
/// # });
/// ```
pub fn aggregate_ip_vec(networks: &mut Vec<IpNetwork>) {
    let count = aggregate_ip_in_place(networks.as_mut_slice());
    networks.truncate(count);
}

// Moves the IPv4 networks before the IPv6 networks, and returns the number of IPv4 networks.
fn put_v4_first(networks: &mut [IpNetwork]) -> usize {
    let mut v4_count = 0;
    for next in 0..networks.len() {
        if networks[next].is_ipv4() {
            networks.swap(v4_count, next);
            v4_count += 1;
        }
    }
    v4_count
}
