//! With the feature `proptest`: sets for property tests.

use crate::network::sealed::Here;
use crate::{AddressSet, AddressSetBuilder, IpNetwork, Ipv4Network, Ipv6Network, Network};
use alloc::vec::Vec;
use core::ops::RangeInclusive;
use proptest::arbitrary::{Arbitrary, any_with};
use proptest::collection::{SizeRange, VecStrategy, vec};
use proptest::strategy::{Map, Strategy as _};

/// Networks, and a number that prefix lengths are at least: out of 32, and four times that of IPv6.
/// Without it, nearly every set would have nearly every address.
type Made<N> = (Vec<N>, u8);

/// Sets of networks of all lengths, and sets that have few addresses.
///
/// The parameters are how many networks there are before they are joined, and those of a network.
impl<N: Network + Arbitrary> Arbitrary for AddressSet<N> {
    type Parameters = (SizeRange, N::Parameters);
    type Strategy =
        Map<(VecStrategy<N::Strategy>, RangeInclusive<u8>), fn(Made<N>) -> AddressSet<N>>;

    fn arbitrary_with((size, network): Self::Parameters) -> Self::Strategy {
        (vec(any_with::<N>(network), size), 0..=32).prop_map(set_of)
    }
}

fn set_of<N: Network>((networks, least): Made<N>) -> AddressSet<N> {
    let mut builder = AddressSetBuilder::default();
    for network in networks {
        let longer = match network.into() {
            IpNetwork::V4(network) => {
                Ipv4Network::new_checked(network.ip(), network.prefix().max(least))
                    .map(|network| N::of_v4(network, Here(())))
            }
            IpNetwork::V6(network) => {
                Ipv6Network::new_checked(network.ip(), network.prefix().max(4 * least))
                    .map(|network| N::of_v6(network, Here(())))
            }
        };
        longer
            .into_iter()
            .for_each(|network| builder.insert(network));
    }
    builder.build()
}
