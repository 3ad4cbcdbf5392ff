// Written by scripts/plain out of crates/allotting/src/hosts.rt

//! The prefix lengths of blocks that have enough hosts.

use fosibegan_core::plain_std::vec::Vec;
use fosibegan_core::ipnetwork_blocks::AddressSpace;
use fosibegan_core::plain_std::alloc::{AllocError, Global};

/// The prefix length of the smallest blocks that have this many hosts; `None` if no block has.
///
/// Hosts are those of `ipv4_hosts` and `ipv6_hosts` of `ipnetwork_blocks`: in IPv4 all addresses
/// but the first and the last, in IPv6 all but the first; in a block of one or two, all of them.
///
/// ```
/// # use cidr_programs::in_examples::*;
/// assert_eq!(length_for::<Ipv4Network>(100), Some(25));
/// assert_eq!(length_for::<Ipv4Network>(1 << 32), None);
/// ```
pub fn length_for<N: AddressSpace>(hosts: u128) -> Option<u8> {
    let mut prefix = N::WIDTH;
    while hosts > host_count::<N>(prefix) {
        if prefix == 0 {
            return None;
        }
        prefix -= 1;
    }
    Some(prefix)
}

/// The prefix lengths for these numbers of hosts, in their order; the error is the index of a
/// number that no block has. `AllocError`: out of memory.
///
/// ```
/// # use cidr_programs::in_examples::*;
/// # ended(|| {
/// let lengths = lengths_for::<Ipv4Network>(Global, &[100, 2])?;
/// assert_eq!(lengths.unwrap().as_slice(), [25, 31].as_slice());
/// # Ok(())
/// # });
/// ```
pub fn lengths_for<N: AddressSpace>(
    alloc: Global,
    numbers: &[u128],
) -> Result<Result<Vec<u8>, usize>, AllocError> {
    let mut lengths = Vec::new(alloc);
    let mut at = 0;
    while at < numbers.len() {
        match length_for::<N>(numbers[at]) {
            Some(prefix) => lengths.push(prefix)?,
            None => return Ok(Err(at)),
        }
        at += 1;
    }
    Ok(Ok(lengths))
}

// The number of hosts of a block of this prefix length.
fn host_count<N: AddressSpace>(prefix: u8) -> u128 {
    let host_bits = N::WIDTH - prefix;
    if host_bits < 2 {
        return u128::from(host_bits) + 1;
    }
    let last = last_offset(host_bits);
    if N::WIDTH == 32 { last - 1 } else { last }
}

// The offset of the last address in a block with this many host bits.
fn last_offset(host_bits: u8) -> u128 {
    u128::MAX >> (128 - host_bits)
}
