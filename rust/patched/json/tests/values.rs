//! A network is a JSON string, and no other value is one.

use ipnetwork::{IpNetwork, Ipv4Network, Ipv6Network};
use json::Networks;
use serde_json::{from_slice, from_str, from_value, to_string, to_value, Value};
use std::collections::BTreeMap;

#[test]
fn a_struct_of_networks() {
    let text = concat!(
        r#"{"ipnetwork":["127.1.0.0/24","::1/0"],"#,
        r#""ipv4network":"10.1.9.32/16","ipv6network":"2001:db8::/32"}"#
    );
    let networks = Networks {
        ipnetwork: vec!["127.1.0.0/24".parse().unwrap(), "::1/0".parse().unwrap()],
        ipv4network: "10.1.9.32/16".parse().unwrap(),
        ipv6network: Some("2001:db8::/32".parse().unwrap()),
    };
    assert_eq!(from_str::<Networks>(text).unwrap(), networks);
    assert_eq!(from_slice::<Networks>(text.as_bytes()).unwrap(), networks);
    assert_eq!(to_string(&networks).unwrap(), text);
    let value = to_value(&networks).unwrap();
    assert_eq!(value, from_str::<Value>(text).unwrap());
    assert_eq!(from_value::<Networks>(value).unwrap(), networks);
}

#[test]
fn keys_of_an_object() {
    let text = r#"{"10.0.0.0/8":1,"2001:db8::/32":2}"#;
    let keys: BTreeMap<IpNetwork, u8> = from_str(text).unwrap();
    assert_eq!(keys[&"10.0.0.0/8".parse().unwrap()], 1);
    assert_eq!(to_string(&keys).unwrap(), text);
}

#[test]
fn other_spellings() {
    let read: Ipv4Network = from_str(r#""10.0.0.0\/255.255.0.0""#).unwrap();
    assert_eq!(to_string(&read).unwrap(), r#""10.0.0.0/16""#);
    let read: Ipv6Network = from_str(r#""2001:DB8:0:0::/+032""#).unwrap();
    assert_eq!(to_string(&read).unwrap(), r#""2001:db8::/32""#);
}

/// What reading a value as a network says.
fn refused<T: serde::de::DeserializeOwned + std::fmt::Debug>(value: Value) -> String {
    from_value::<T>(value).unwrap_err().to_string()
}

#[test]
fn refusals() {
    assert_eq!(
        refused::<Ipv4Network>("10.1.1.1/24/".into()),
        "invalid cidr format: CIDR must contain a single '/': 10.1.1.1/24/"
    );
    assert_eq!(refused::<Ipv6Network>("::/129".into()), "invalid prefix");
    assert_eq!(refused::<IpNetwork>("10/8".into()), "invalid address: 10/8");
    assert_eq!(
        refused::<IpNetwork>(7.into()),
        "invalid type: integer `7`, expected a string"
    );
    for value in [Value::Null, true.into(), vec!["10.0.0.0/8"].into()] {
        assert!(refused::<Ipv4Network>(value).ends_with("expected a string"));
    }
}
