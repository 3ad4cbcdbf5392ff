//! With the feature `serde`: networks as texts and as bytes.

use crate::{IpNetwork, Ipv4Network, Ipv6Network};
use core::fmt;
use core::marker::PhantomData;
use core::str::FromStr;
use serde::de::{Deserialize, Deserializer, Error, SeqAccess, Unexpected, Visitor};
use serde::ser::{Serialize, Serializer};

/// A network that is read from bytes.
trait OfBytes: Sized {
    /// What the bytes should be.
    const EXPECTED: &'static str;

    /// The network of these bytes, unless they are too few or too many, or the prefix length is too
    /// great.
    fn of_bytes(bytes: &[u8]) -> Option<Self>;
}

impl OfBytes for Ipv4Network {
    const EXPECTED: &'static str =
        "the 4 bytes of an IPv4 address and a prefix length of at most 32";

    fn of_bytes(bytes: &[u8]) -> Option<Self> {
        let [octets @ .., prefix]: [u8; 5] = bytes.try_into().ok()?;
        Self::new_checked(octets.into(), prefix)
    }
}

impl OfBytes for Ipv6Network {
    const EXPECTED: &'static str =
        "the 16 bytes of an IPv6 address and a prefix length of at most 128";

    fn of_bytes(bytes: &[u8]) -> Option<Self> {
        let [octets @ .., prefix]: [u8; 17] = bytes.try_into().ok()?;
        Self::new_checked(octets.into(), prefix)
    }
}

impl OfBytes for IpNetwork {
    const EXPECTED: &'static str =
        "the 4 or 16 bytes of an IP address and a prefix length of its family";

    fn of_bytes(bytes: &[u8]) -> Option<Self> {
        let v4 = Ipv4Network::of_bytes(bytes).map(Self::V4);
        v4.or_else(|| Ipv6Network::of_bytes(bytes).map(Self::V6))
    }
}

/// Reads a network from its text.
struct Text<N>(PhantomData<N>);

impl<N: FromStr<Err: fmt::Display>> Visitor<'_> for Text<N> {
    type Value = N;

    fn expecting(&self, f: &mut fmt::Formatter<'_>) -> fmt::Result {
        f.write_str("a string")
    }

    fn visit_str<E: Error>(self, text: &str) -> Result<N, E> {
        text.parse().map_err(E::custom)
    }

    fn visit_bytes<E: Error>(self, bytes: &[u8]) -> Result<N, E> {
        match core::str::from_utf8(bytes) {
            Ok(text) => self.visit_str(text),
            Err(_) => Err(E::invalid_value(Unexpected::Bytes(bytes), &self)),
        }
    }
}

/// Reads a network from its bytes.
struct Bytes<N>(PhantomData<N>);

impl<'de, N: OfBytes> Visitor<'de> for Bytes<N> {
    type Value = N;

    fn expecting(&self, f: &mut fmt::Formatter<'_>) -> fmt::Result {
        f.write_str(N::EXPECTED)
    }

    fn visit_bytes<E: Error>(self, bytes: &[u8]) -> Result<N, E> {
        N::of_bytes(bytes).ok_or_else(|| E::invalid_value(Unexpected::Bytes(bytes), &self))
    }

    /// For formats that have no bytes of their own.
    fn visit_seq<A: SeqAccess<'de>>(self, mut sequence: A) -> Result<N, A::Error> {
        let (mut bytes, mut len) = ([0; 17], 0);
        while let Some(byte) = sequence.next_element()? {
            match bytes.get_mut(len) {
                Some(place) => *place = byte,
                None => return Err(A::Error::invalid_length(len + 1, &self)),
            }
            len += 1;
        }
        self.visit_bytes(&bytes[..len])
    }
}

macro_rules! network {
    ($($name:ident)*) => {$(
        /// A network is read from what `Serialize` writes: from each text that [`parse`](str::parse)
        /// reads, or from bytes.
        ///
        /// Bytes are refused if their number or the prefix length is none of this type.
        impl<'de> Deserialize<'de> for $name {
            fn deserialize<D: Deserializer<'de>>(deserializer: D) -> Result<Self, D::Error> {
                if deserializer.is_human_readable() {
                    deserializer.deserialize_str(Text(PhantomData))
                } else {
                    deserializer.deserialize_bytes(Bytes(PhantomData))
                }
            }
        }
    )*};
}

network!(Ipv4Network Ipv6Network IpNetwork);

/// A network is text in formats that people read, such as JSON, and 5 bytes in others: those of the
/// address, the most significant first, and the prefix length.
impl Serialize for Ipv4Network {
    fn serialize<S: Serializer>(&self, serializer: S) -> Result<S::Ok, S::Error> {
        if serializer.is_human_readable() {
            return serializer.serialize_str(self.canonical().as_str());
        }
        let [a, b, c, d] = self.ip().octets();
        serializer.serialize_bytes(&[a, b, c, d, self.prefix()])
    }
}

/// A network is text in formats that people read, such as JSON, and 17 bytes in others: those of
/// the address, the most significant first, and the prefix length.
impl Serialize for Ipv6Network {
    fn serialize<S: Serializer>(&self, serializer: S) -> Result<S::Ok, S::Error> {
        if serializer.is_human_readable() {
            return serializer.serialize_str(self.canonical().as_str());
        }
        let mut bytes = [self.prefix(); 17];
        bytes[..16].copy_from_slice(&self.ip().octets());
        serializer.serialize_bytes(&bytes)
    }
}

/// A network is text in formats that people read, such as JSON, and bytes in others: those of its
/// address, the most significant first, and its prefix length. These are 5 for IPv4 and 17 for IPv6,
/// so that either family is read back.
impl Serialize for IpNetwork {
    fn serialize<S: Serializer>(&self, serializer: S) -> Result<S::Ok, S::Error> {
        match self {
            Self::V4(network) => network.serialize(serializer),
            Self::V6(network) => network.serialize(serializer),
        }
    }
}
