//! With the feature `serde`: networks as texts, and as bytes in formats that people do not read.

#![cfg(feature = "serde")]

mod formats;

use core::fmt::{self, Debug, Display};
use core::str::FromStr;
use formats::{By, Format, No};
use fosibegan::{IpNetwork, IpNetworkError, Ipv4Network, Ipv6Network};
use serde::de::value::{
    BytesDeserializer, Error, SeqDeserializer, StrDeserializer, U8Deserializer,
};
use serde::de::{DeserializeOwned, Deserializer, IntoDeserializer as _, Visitor};
use serde::{Deserialize, Serialize, forward_to_deserialize_any};

/// A format of bytes alone, which people do not read.
struct Bytes;

impl Format for Bytes {
    type Ok = Vec<u8>;
    type Items = No<Vec<u8>>;

    fn is_for_people(&self) -> bool {
        false
    }

    fn bytes(self, bytes: &[u8]) -> Vec<u8> {
        bytes.to_vec()
    }
}

/// What this format reads: bytes as such, or one by one as formats have them that have no bytes.
struct Read<'a>(&'a [u8], bool);

impl<'de> Deserializer<'de> for Read<'_> {
    type Error = Error;

    fn is_human_readable(&self) -> bool {
        false
    }

    fn deserialize_any<V: Visitor<'de>>(self, visitor: V) -> Result<V::Value, Error> {
        if self.1 {
            visitor.visit_bytes(self.0)
        } else {
            visitor.visit_seq(SeqDeserializer::new(self.0.iter().copied()))
        }
    }

    forward_to_deserialize_any! {
        bool i8 i16 i32 i64 u8 u16 u32 u64 f32 f64 char str string bytes byte_buf option unit
        unit_struct newtype_struct seq tuple tuple_struct map struct enum identifier ignored_any
    }
}

/// What a readable format writes.
struct Shown<N>(N);

impl<N: Serialize> Display for Shown<N> {
    fn fmt(&self, f: &mut fmt::Formatter<'_>) -> fmt::Result {
        self.0.serialize(f)
    }
}

fn of_text<N: DeserializeOwned>(text: &str) -> Result<N, String> {
    let text: StrDeserializer<'_, Error> = text.into_deserializer();
    N::deserialize(text).map_err(|error| error.to_string())
}

fn of_bytes<N: DeserializeOwned>(bytes: &[u8]) -> Result<N, String> {
    let of_bytes = N::deserialize(Read(bytes, true)).map_err(|error| error.to_string());
    let of_sequence = N::deserialize(Read(bytes, false));
    assert_eq!(of_bytes.is_ok(), of_sequence.is_ok(), "{bytes:?}");
    of_bytes
}

fn goes_and_comes<N>(network: N, text: &str, bytes: &[u8])
where
    N: Copy + Debug + PartialEq + Serialize + DeserializeOwned,
{
    assert_eq!(Shown(network).to_string(), text);
    assert_eq!(of_text(text), Ok(network));
    let as_bytes: BytesDeserializer<'_, Error> = BytesDeserializer::new(text.as_bytes());
    assert_eq!(N::deserialize(as_bytes), Ok(network));
    assert_eq!(network.serialize(By(Bytes)).unwrap(), bytes);
    assert_eq!(of_bytes(bytes), Ok(network));
    assert_eq!(N::deserialize(Read(bytes, false)), Ok(network));
}

#[test]
fn networks() {
    for prefix in 0..=32 {
        for octets in [[0; 4], [255; 4], [10, 1, 9, 32]] {
            let network = Ipv4Network::new(octets.into(), prefix).unwrap();
            let text = network.to_string();
            let bytes = [&octets[..], &[prefix]].concat();
            goes_and_comes(network, &text, &bytes);
            goes_and_comes(IpNetwork::V4(network), &text, &bytes);
        }
    }
    for prefix in 0..=128 {
        for octets in [
            [0; 16],
            [255; 16],
            [32, 1, 13, 184, 0, 1, 2, 3, 4, 5, 6, 7, 8, 9, 10, 11],
        ] {
            let network = Ipv6Network::new(octets.into(), prefix).unwrap();
            let text = network.to_string();
            let bytes = [&octets[..], &[prefix]].concat();
            goes_and_comes(network, &text, &bytes);
            goes_and_comes(IpNetwork::V6(network), &text, &bytes);
        }
    }
}

/// A text is refused with the words of `parse`.
fn refused_alike<N>(text: &str)
where
    N: Debug + PartialEq + DeserializeOwned + FromStr<Err = IpNetworkError>,
{
    assert_eq!(
        of_text::<N>(text),
        text.parse::<N>().map_err(|error| error.to_string()),
        "{text}"
    );
}

#[test]
fn texts_that_are_refused() {
    for text in [
        "",
        "x",
        "10.0.0.0/33",
        "10.0.0.0/8/8",
        "::/129",
        "10.0.0.0/8 ",
        "::1",
        "10.0.0.0",
    ] {
        refused_alike::<Ipv4Network>(text);
        refused_alike::<Ipv6Network>(text);
        refused_alike::<IpNetwork>(text);
    }
    assert_eq!(
        of_text::<IpNetwork>("10/8"),
        Err("invalid address: 10/8".to_string())
    );
    let number: U8Deserializer<Error> = 8_u8.into_deserializer();
    let error = Ipv4Network::deserialize(number).unwrap_err().to_string();
    assert_eq!(error, "invalid type: integer `8`, expected a string");
    for no_text in [
        &b"\xff"[..],
        b"10.0.0.0/8\xff",
        b"\xff10.0.0.0/8",
        b"10.0.0.0/8\0",
    ] {
        let no_text: BytesDeserializer<'_, Error> = BytesDeserializer::new(no_text);
        assert!(IpNetwork::deserialize(no_text).is_err());
    }
}

#[test]
fn bytes_that_are_refused() {
    for len in 0..40 {
        let bytes = vec![8; len];
        assert_eq!(of_bytes::<Ipv4Network>(&bytes).is_ok(), len == 5, "{len}");
        assert_eq!(of_bytes::<Ipv6Network>(&bytes).is_ok(), len == 17, "{len}");
        assert_eq!(
            of_bytes::<IpNetwork>(&bytes).is_ok(),
            len == 5 || len == 17,
            "{len}"
        );
    }
    for prefix in 0..=u8::MAX {
        let v4 = [10, 1, 9, 32, prefix];
        assert_eq!(of_bytes::<Ipv4Network>(&v4).is_ok(), prefix <= 32);
        assert_eq!(of_bytes::<IpNetwork>(&v4).is_ok(), prefix <= 32);
        let mut v6 = [1; 17];
        v6[16] = prefix;
        assert_eq!(of_bytes::<Ipv6Network>(&v6).is_ok(), prefix <= 128);
        assert_eq!(of_bytes::<IpNetwork>(&v6).is_ok(), prefix <= 128);
    }
    let error = of_bytes::<Ipv4Network>(&[10, 1, 9, 32, 33]).unwrap_err();
    let expected = "expected the 4 bytes of an IPv4 address and a prefix length of at most 32";
    assert_eq!(error, format!("invalid value: byte array, {expected}"));
}
