// Written by scripts/plain out of crates/reducing/src/joining.rt

//! The block that two blocks are joined into, and what else is in it.

use fosibegan_core::ipnetwork_blocks::AddressSpace;

/// The smallest block that contains both networks.
///
/// ```
/// # use cidr_programs::in_examples::*;
/// # ended(|| {
/// let joined = joined::<Ipv4Network>("10.0.1.0/24".parse()?, "10.0.2.128/25".parse()?);
/// assert_eq!(joined, "10.0.0.0/22".parse()?);
/// # Ok(())
/// # });
/// ```
pub fn joined<N: AddressSpace>(first: N, second: N) -> N {
    N::block_at(first.network(), joined_prefix(first, second))
}

/// The number of addresses of the smallest block around two networks that are in neither of them.
/// The two share no address.
///
/// ```
/// # use cidr_programs::in_examples::*;
/// # ended(|| {
/// let others = others::<Ipv4Network>("10.0.1.0/24".parse()?, "10.0.2.128/25".parse()?);
/// assert_eq!(others, 1024 - 256 - 128);
/// # Ok(())
/// # });
/// ```
pub fn others<N: AddressSpace>(first: N, second: N) -> u128 {
    let all = last_offset::<N>(joined_prefix(first, second));
    let beside_first = all.saturating_sub(last_offset::<N>(first.prefix()));
    beside_first
        .saturating_sub(last_offset::<N>(second.prefix()))
        .saturating_sub(1)
}

// The prefix length of the smallest block that contains both networks.
fn joined_prefix<N: AddressSpace>(first: N, second: N) -> u8 {
    let shared = N::shared_bits(first.network(), second.network());
    shared.min(first.prefix()).min(second.prefix())
}

// The offset of the last address in a block of this prefix length.
fn last_offset<N: AddressSpace>(prefix: u8) -> u128 {
    let host_bits = N::WIDTH - prefix;
    if host_bits == 0 {
        0
    } else {
        u128::MAX >> (128 - host_bits)
    }
}
