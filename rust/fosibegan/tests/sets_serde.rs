//! With the feature `serde`: sets as lists of networks.

#![cfg(feature = "serde")]

mod formats;

use formats::{By, Format, No};
use fosibegan::{AddressSet, FrozenSet, IpNetwork, Ipv4Network, Ipv6Network, Network};
use serde::de::value::{Error, SeqDeserializer, StrDeserializer};
use serde::de::{Deserialize, IntoDeserializer as _};
use serde::ser::{Serialize, SerializeSeq, SerializeTuple};

/// A format that has lists of texts and nothing else.
struct Texts;

/// The texts of a list, and how many were announced.
struct List(Option<usize>, Vec<String>);

/// A format that has texts and nothing else.
struct Text;

impl SerializeSeq for List {
    type Ok = List;
    type Error = Error;

    fn serialize_element<T: Serialize + ?Sized>(&mut self, value: &T) -> Result<(), Error> {
        self.1.push(value.serialize(By(Text))?);
        Ok(())
    }

    fn end(self) -> Result<List, Error> {
        Ok(self)
    }
}

impl SerializeTuple for List {
    type Ok = List;
    type Error = Error;

    fn serialize_element<T: Serialize + ?Sized>(&mut self, _: &T) -> Result<(), Error> {
        panic!("not of this format")
    }

    fn end(self) -> Result<List, Error> {
        panic!("not of this format")
    }
}

impl Format for Texts {
    type Ok = List;
    type Items = List;

    fn list(self, len: Option<usize>) -> List {
        List(len, Vec::new())
    }
}

impl Format for Text {
    type Ok = String;
    type Items = No<String>;

    fn text(self, text: &str) -> String {
        text.to_owned()
    }
}

/// The set of a list, or why there is none. A frozen set is read, and refused, in the same way.
fn read<'a, N: Network + Deserialize<'a>>(texts: &[&'a str]) -> Result<AddressSet<N>, Error> {
    let list = || SeqDeserializer::<_, Error>::new(texts.iter().copied());
    let set = AddressSet::deserialize(list());
    assert_eq!(FrozenSet::deserialize(list()).map(FrozenSet::into_set), set);
    set
}

/// The list of a set, which is that of the frozen set too.
fn written<N: Network + Serialize>(set: &AddressSet<N>) -> Vec<String> {
    let List(len, texts) = set.serialize(By(Texts)).unwrap();
    assert_eq!(len, Some(texts.len()));
    let List(frozen_len, frozen_texts) = set.freeze().serialize(By(Texts)).unwrap();
    assert_eq!((frozen_len, &frozen_texts), (len, &texts));
    texts
}

/// What is read, in any order, and what is written of it.
#[test]
fn lists_are_read_in_any_order_and_written_in_ascending_order() {
    let rows: [(&[&str], &[&str]); 5] = [
        (&[], &[]),
        (&["::/0", "0.0.0.0/0"], &["0.0.0.0/0", "::/0"]),
        (&["10.128.0.0/9", "10.0.0.0/9"], &["10.0.0.0/8"]),
        (
            &["10.1.2.3/8", "10.0.0.0/16", "192.0.2.7"],
            &["10.0.0.0/8", "192.0.2.7/32"],
        ),
        (
            &["2001:db8::/32", "255.255.255.255", "255.255.255.255/32"],
            &["255.255.255.255/32", "2001:db8::/32"],
        ),
    ];
    for (texts, expected) in rows {
        let set = read::<IpNetwork>(texts).unwrap();
        assert_eq!(written(&set), expected);
        assert_eq!(read(expected).unwrap(), set);
    }
    assert_eq!(
        written(&read::<Ipv4Network>(&["10.0.0.0/9", "10.128.0.0/9"]).unwrap()),
        ["10.0.0.0/8"]
    );
    assert_eq!(
        written(&read::<Ipv6Network>(&["::/1", "8000::/1"]).unwrap()),
        ["::/0"]
    );
}

#[test]
fn one_wrong_network_refuses_the_list() {
    for wrong in [
        "10.0.0.0/33",
        "10.0.0",
        "",
        "fe80::1%eth0",
        "::/129",
        "10.0.0.0/8 ",
    ] {
        for list in [&[wrong][..], &["10.0.0.0/8", wrong], &[wrong, "10.0.0.0/8"]] {
            assert!(read::<IpNetwork>(list).is_err(), "{wrong}");
        }
    }
    assert!(read::<Ipv4Network>(&["10.0.0.0/8", "::/0"]).is_err());
    assert!(read::<Ipv6Network>(&["10.0.0.0/8"]).is_err());
    let text: StrDeserializer<'_, Error> = "10.0.0.0/8".into_deserializer();
    let refusal = AddressSet::<IpNetwork>::deserialize(text)
        .unwrap_err()
        .to_string();
    assert!(refusal.contains("a list of IP networks"), "{refusal}");
}
