// Written by scripts/plain out of crates/ipnetwork_blocks/src/supernets.rt

//! The block of a network, the blocks that contain it, and the other half of its parent.

use crate::ipnetwork_family::CidrNetwork;

/// Returns the network without host bits that has the same members and the same prefix length.
///
/// ```
/// # use fosibegan_core::in_examples::*;
/// # ended(|| {
/// let network: Ipv4Network = "192.0.2.129/25".parse()?;
/// assert_eq!(block(network).canonical().as_str(), "192.0.2.128/25");
/// # Ok(())
/// # });
/// ```
pub fn block<N: CidrNetwork>(network: N) -> N {
    let Some(block) = N::block(network.ip(), network.prefix()) else {
        unreachable!()
    };
    block
}

/// Returns the block of this prefix length that contains the network. It has no host bits. At the
/// network's own prefix length, it is the network's `block`. Returns `None` if `prefix` is longer
/// than the network's prefix length.
///
/// ```
/// # use fosibegan_core::in_examples::*;
/// # ended(|| {
/// let network: Ipv4Network = "192.0.2.129/25".parse()?;
/// assert_eq!(supernet(network, 24), Some("192.0.2.0/24".parse()?));
/// assert_eq!(supernet(network, 26), None);
/// # Ok(())
/// # });
/// ```
pub fn supernet<N: CidrNetwork>(network: N, prefix: u8) -> Option<N> {
    if prefix > network.prefix() {
        return None;
    }
    N::block(network.ip(), prefix)
}

/// Returns the other half of the block that is one bit shorter: a block of the same prefix length,
/// without host bits. Returns `None` at prefix length 0, because there is no wider block.
///
/// ```
/// # use fosibegan_core::in_examples::*;
/// # ended(|| {
/// let network: Ipv4Network = "192.0.2.128/25".parse()?;
/// assert_eq!(sibling(network), Some("192.0.2.0/25".parse()?));
/// # Ok(())
/// # });
/// ```
pub fn sibling<N: CidrNetwork>(network: N) -> Option<N> {
    let prefix = network.prefix();
    if prefix == 0 {
        return None;
    }
    let Some(parent) = N::block(network.ip(), prefix - 1) else {
        unreachable!()
    };
    let end = parent.broadcast();
    if network.broadcast() != end {
        return N::block(end, prefix);
    }
    N::block(parent.network(), prefix)
}
