//! Sets in the formats of serde.

use crate::{AddressSet, AddressSetBuilder, FrozenSet, Network};
use core::fmt;
use core::marker::PhantomData;
use serde::de::{Deserialize, Deserializer, SeqAccess, Visitor};
use serde::ser::{Serialize, Serializer};

/// A set is a sequence of its networks, in ascending order, IPv4 first.
impl<N: Network + Serialize> Serialize for AddressSet<N> {
    fn serialize<S: Serializer>(&self, serializer: S) -> Result<S::Ok, S::Error> {
        serializer.collect_seq(self)
    }
}

/// A set is read from a sequence of networks, which may be in any order, overlap, and have host
/// bits.
impl<'de, N: Network + Deserialize<'de>> Deserialize<'de> for AddressSet<N> {
    fn deserialize<D: Deserializer<'de>>(deserializer: D) -> Result<Self, D::Error> {
        deserializer.deserialize_seq(NetworksVisitor(PhantomData))
    }
}

/// As an [`AddressSet`].
impl<N: Network + Serialize> Serialize for FrozenSet<N> {
    fn serialize<S: Serializer>(&self, serializer: S) -> Result<S::Ok, S::Error> {
        self.as_set().serialize(serializer)
    }
}

/// As an [`AddressSet`].
impl<'de, N: Network + Deserialize<'de>> Deserialize<'de> for FrozenSet<N> {
    fn deserialize<D: Deserializer<'de>>(deserializer: D) -> Result<Self, D::Error> {
        AddressSet::deserialize(deserializer).map(FrozenSet::from)
    }
}

struct NetworksVisitor<N>(PhantomData<N>);

impl<'de, N: Network + Deserialize<'de>> Visitor<'de> for NetworksVisitor<N> {
    type Value = AddressSet<N>;

    fn expecting(&self, f: &mut fmt::Formatter<'_>) -> fmt::Result {
        f.write_str("a list of IP networks")
    }

    fn visit_seq<A: SeqAccess<'de>>(self, mut networks: A) -> Result<AddressSet<N>, A::Error> {
        let mut builder = AddressSetBuilder::default();
        while let Some(network) = networks.next_element()? {
            builder.insert(network);
        }
        Ok(builder.build())
    }
}
