//! With the feature `proptest`: maps of up to 100 entries, or of as many as the parameter says.

use super::{FrozenMap, PrefixMap};
use crate::Network;
use alloc::vec::Vec;
use proptest::arbitrary::Arbitrary;
use proptest::collection::{SizeRange, VecStrategy, vec};
use proptest::strategy::{Map, Strategy};

/// A strategy for lists of entries, which are then made a map.
type OfEntries<N, V, M> = Map<
    VecStrategy<(<N as Arbitrary>::Strategy, <V as Arbitrary>::Strategy)>,
    fn(Vec<(N, V)>) -> M,
>;

macro_rules! arbitrary {
    ($name:ident) => {
        impl<N: Network + Arbitrary, V: Arbitrary> Arbitrary for $name<N, V> {
            type Parameters = (SizeRange, N::Parameters, V::Parameters);
            type Strategy = OfEntries<N, V, Self>;

            fn arbitrary_with((size, networks, values): Self::Parameters) -> Self::Strategy {
                let entry = (N::arbitrary_with(networks), V::arbitrary_with(values));
                vec(entry, size).prop_map(|entries| entries.into_iter().collect())
            }
        }
    };
}

arbitrary!(PrefixMap);
arbitrary!(FrozenMap);
