//! With the feature `serde`: a map is a list of pairs, each of a network and its value.

use super::{Entry, FrozenMap, PrefixMap};
use crate::Network;
use core::fmt::{self, Formatter};
use core::marker::PhantomData;
use serde::de::{Deserialize, Deserializer, Error, SeqAccess, Visitor};
use serde::ser::{Serialize, Serializer};

impl<N: Network + Serialize, V: Serialize> Serialize for PrefixMap<N, V> {
    /// Writes a list of pairs, each of a network and its value, in order.
    fn serialize<S: Serializer>(&self, serializer: S) -> Result<S::Ok, S::Error> {
        serializer.collect_seq(self)
    }
}

impl<N: Network + Serialize, V: Serialize> Serialize for FrozenMap<N, V> {
    /// Writes a list of pairs, each of a network and its value, in order.
    fn serialize<S: Serializer>(&self, serializer: S) -> Result<S::Ok, S::Error> {
        serializer.collect_seq(self)
    }
}

impl<'de, N, V> Deserialize<'de> for PrefixMap<N, V>
where
    N: Network + Deserialize<'de>,
    V: Deserialize<'de>,
{
    /// Reads a list of pairs, in any order. Host bits are cleared. A list that has a network twice
    /// is refused.
    fn deserialize<D: Deserializer<'de>>(deserializer: D) -> Result<Self, D::Error> {
        deserializer.deserialize_seq(Pairs {
            entries: PhantomData,
        })
    }
}

impl<'de, N, V> Deserialize<'de> for FrozenMap<N, V>
where
    N: Network + Deserialize<'de>,
    V: Deserialize<'de>,
{
    /// Reads what [`PrefixMap`] reads.
    fn deserialize<D: Deserializer<'de>>(deserializer: D) -> Result<Self, D::Error> {
        PrefixMap::deserialize(deserializer).map(PrefixMap::freeze)
    }
}

/// Reads a list of pairs.
struct Pairs<N, V> {
    entries: PhantomData<(N, V)>,
}

impl<'de, N, V> Visitor<'de> for Pairs<N, V>
where
    N: Network + Deserialize<'de>,
    V: Deserialize<'de>,
{
    type Value = PrefixMap<N, V>;

    fn expecting(&self, f: &mut Formatter<'_>) -> fmt::Result {
        f.write_str("a list of pairs, each of a network and its value")
    }

    fn visit_seq<A: SeqAccess<'de>>(self, mut pairs: A) -> Result<Self::Value, A::Error> {
        let mut map = PrefixMap::default();
        while let Some((network, value)) = pairs.next_element()? {
            match map.entry(network) {
                Entry::Vacant(entry) => {
                    entry.insert(value);
                }
                Entry::Occupied(entry) => {
                    let network = entry.key();
                    return Err(A::Error::custom(format_args!(
                        "the network {network} comes twice"
                    )));
                }
            }
        }
        Ok(map)
    }
}
