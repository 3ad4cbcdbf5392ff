//! With the feature `serde`: maps as lists of pairs.

#![cfg(feature = "serde")]

mod formats;

use formats::{By, Format};
use fosibegan::{FrozenMap, IpNetwork, Ipv4Network, PrefixMap};
use serde::Deserialize;
use serde::de::value::{Error, MapDeserializer};
use serde::ser::{Serialize, SerializeSeq, SerializeTuple};

/// A format that has lists, pairs, texts and numbers, which it prints.
struct Text;

/// What is printed of a list or a pair so far.
struct Items(Vec<String>, [&'static str; 2]);

impl Items {
    fn add<T: Serialize + ?Sized>(&mut self, item: &T) -> Result<(), Error> {
        self.0.push(item.serialize(By(Text))?);
        Ok(())
    }

    fn text(self) -> Result<String, Error> {
        Ok(format!("{}{}{}", self.1[0], self.0.join(" "), self.1[1]))
    }
}

impl SerializeSeq for Items {
    type Ok = String;
    type Error = Error;

    fn serialize_element<T: Serialize + ?Sized>(&mut self, item: &T) -> Result<(), Error> {
        self.add(item)
    }

    fn end(self) -> Result<String, Error> {
        self.text()
    }
}

impl SerializeTuple for Items {
    type Ok = String;
    type Error = Error;

    fn serialize_element<T: Serialize + ?Sized>(&mut self, item: &T) -> Result<(), Error> {
        self.add(item)
    }

    fn end(self) -> Result<String, Error> {
        self.text()
    }
}

impl Format for Text {
    type Ok = String;
    type Items = Items;

    fn list(self, count: Option<usize>) -> Items {
        assert!(count.is_some(), "the length of a map is known");
        Items(Vec::new(), ["[", "]"])
    }

    fn tuple(self, count: usize) -> Items {
        assert_eq!(count, 2);
        Items(Vec::new(), ["(", ")"])
    }

    fn text(self, text: &str) -> String {
        text.to_string()
    }

    fn number(self, number: u32) -> String {
        number.to_string()
    }
}

/// Reads a list of pairs.
fn read<T: for<'de> Deserialize<'de>>(pairs: &[(&str, u32)]) -> Result<T, String> {
    let pairs = MapDeserializer::<_, Error>::new(pairs.iter().copied());
    T::deserialize(pairs).map_err(|error| error.to_string())
}

#[test]
fn a_map_is_a_list_of_pairs() {
    let pairs = [("2001:db8::/32", 3), ("10.1.0.0/16", 2), ("10.0.0.0/8", 1)];
    let text = "[(10.0.0.0/8 1) (10.1.0.0/16 2) (2001:db8::/32 3)]";
    let map: PrefixMap<IpNetwork, u32> = read(&pairs).unwrap();
    assert_eq!(map.serialize(By(Text)).unwrap(), text);
    let frozen: FrozenMap<IpNetwork, u32> = read(&pairs).unwrap();
    assert_eq!(frozen.serialize(By(Text)).unwrap(), text);
    assert_eq!(frozen.into_map(), map);
    let empty: PrefixMap<IpNetwork, u32> = read(&[]).unwrap();
    assert_eq!(empty.serialize(By(Text)).unwrap(), "[]");
}

#[test]
fn host_bits_are_cleared() {
    let map: PrefixMap<Ipv4Network, u32> = read(&[("10.1.2.3/8", 1)]).unwrap();
    assert_eq!(map.serialize(By(Text)).unwrap(), "[(10.0.0.0/8 1)]");
}

#[test]
fn a_network_that_comes_twice_is_refused() {
    let twice = [("10.0.0.0/8", 1), ("::/0", 2), ("10.1.2.3/8", 1)];
    let refusal = "the network 10.0.0.0/8 comes twice".to_string();
    let map: Result<PrefixMap<IpNetwork, u32>, _> = read(&twice);
    assert_eq!(map, Err(refusal.clone()));
    let frozen: Result<FrozenMap<IpNetwork, u32>, _> = read(&twice);
    assert_eq!(frozen, Err(refusal));
}

#[test]
fn what_is_no_list_of_pairs_is_refused() {
    let wrong: Result<PrefixMap<Ipv4Network, u32>, _> = read(&[("::/0", 1)]);
    assert!(wrong.is_err());
    let text = serde::de::value::StrDeserializer::<Error>::new("10.0.0.0/8");
    let refusal = PrefixMap::<Ipv4Network, u32>::deserialize(text)
        .unwrap_err()
        .to_string();
    assert!(
        refusal.ends_with("expected a list of pairs, each of a network and its value"),
        "{refusal}"
    );
}
