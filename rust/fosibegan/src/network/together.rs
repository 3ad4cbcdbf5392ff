//! What many networks are together.

use alloc::vec::Vec;
use fosibegan_core::ipnetwork_family::CidrNetwork;
use fosibegan_core::{AddressSpace, aggregate_in_place, spanning as spanning_core};

/// The fewest networks that contain the same addresses as these, in ascending order.
pub(super) fn aggregate<C: CidrNetwork>(mut networks: Vec<C>) -> Vec<C> {
    let count = aggregate_in_place(&mut networks);
    networks.truncate(count);
    networks
}

/// The smallest network that contains all of these.
pub(super) fn spanning<C: AddressSpace>(networks: impl Iterator<Item = C>) -> Option<C> {
    networks.fold(None, |around, network| match around {
        Some(around) => spanning_core(&[around, network]),
        None => spanning_core(&[network]),
    })
}
