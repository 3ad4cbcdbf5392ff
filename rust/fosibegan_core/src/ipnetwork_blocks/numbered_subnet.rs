// Written by scripts/plain out of crates/ipnetwork_blocks/src/numbered_subnet.rt

//! One of the blocks of a prefix length within a network, by its number.

use crate::ipnetwork_blocks::address_space::AddressSpace;

/// Returns block number `number` of this prefix length within the network: the one that
/// [`subnets`](crate::ipnetwork_blocks::subnets) yields after `number` others. Returns `None` if `prefix` is shorter
/// than the network's own prefix length n or greater than `WIDTH`, or if `number` is not below
/// 2^(`prefix` - n). Takes a few steps, whatever the number.
///
/// ```
/// # use fosibegan_core::in_examples::*;
/// # ended(|| {
/// let network: Ipv4Network = "10.0.0.0/8".parse()?;
/// assert_eq!(subnet_at(network, 16, 255), Some("10.255.0.0/16".parse()?));
/// assert_eq!(subnet_at(network, 16, 256), None);
/// # Ok(())
/// # });
/// ```
pub fn subnet_at<N: AddressSpace>(network: N, prefix: u8, number: u128) -> Option<N> {
    if prefix < network.prefix() || N::WIDTH < prefix {
        return None;
    }
    if !is_below_power(number, prefix - network.prefix()) {
        return None;
    }
    let offset = times_power(number, N::WIDTH - prefix);
    Some(N::block_at(N::plus(network.network(), offset), prefix))
}

// Returns whether the number is below 2^`exponent`.
fn is_below_power(number: u128, exponent: u8) -> bool {
    exponent >= 128 || number >> exponent == 0
}

// Returns the number times 2^`exponent`, which must fit in 128 bits. Zero is tested first because
// 128 bits cannot be shifted by 128.
fn times_power(number: u128, exponent: u8) -> u128 {
    if number == 0 {
        return 0;
    }
    number << exponent
}
