//! Networks as texts: read, printed, and refused.

use crate::common::{Random, either, v4, v6};
use core::fmt::{Debug, Display};
use core::net::{Ipv4Addr, Ipv6Addr};
use core::str::FromStr;
use fosibegan::{IpNetwork, IpNetworkError, Ipv4Network, Ipv6Network};

/// Texts of networks, and how these are printed.
const V4: [(&str, &str); 12] = [
    ("0.0.0.0/0", "0.0.0.0/0"),
    ("10.1.9.32/8", "10.1.9.32/8"),
    ("10.1.9.32/08", "10.1.9.32/8"),
    ("10.1.9.32/+8", "10.1.9.32/8"),
    ("10.1.9.32", "10.1.9.32/32"),
    ("10.1.9.32/31", "10.1.9.32/31"),
    ("10.1.9.32/255.0.0.0", "10.1.9.32/8"),
    ("10.1.9.32/0.0.0.0", "10.1.9.32/0"),
    ("10.1.9.32/255.255.255.255", "10.1.9.32/32"),
    ("255.255.255.255/0", "255.255.255.255/0"),
    ("255.255.255.255/32", "255.255.255.255/32"),
    ("255.255.255.254/31", "255.255.255.254/31"),
];
const V6: [(&str, &str); 9] = [
    ("::/0", "::/0"),
    ("::", "::/128"),
    ("2001:DB8:0:0:0:0:0:1/32", "2001:db8::1/32"),
    ("2001:db8::1/127", "2001:db8::1/127"),
    ("::ffff:10.0.0.1/104", "::ffff:10.0.0.1/104"),
    ("1:0:0:2:0:0:0:3/+64", "1:0:0:2::3/64"),
    ("1:2:3:4:5:6:7:8/064", "1:2:3:4:5:6:7:8/64"),
    (
        "ffff:ffff:ffff:ffff:ffff:ffff:ffff:ffff/0",
        "ffff:ffff:ffff:ffff:ffff:ffff:ffff:ffff/0",
    ),
    (
        "ffff:ffff:ffff:ffff:ffff:ffff:ffff:ffff/128",
        "ffff:ffff:ffff:ffff:ffff:ffff:ffff:ffff/128",
    ),
];

fn is_printed<N>(network: N, printed: &str)
where
    N: Copy + Debug + Display + PartialEq + FromStr<Err: Debug>,
{
    assert_eq!(network.to_string(), printed);
    assert_eq!(format!("{network:?}"), printed);
    assert_eq!(format!("{network:#?}"), printed);
    assert_eq!(format!("[{network:>60}]"), format!("[{printed:>60}]"));
    assert_eq!(format!("[{network:>60?}]"), format!("[{printed:>60}]"));
    assert_eq!(format!("[{network:<60}]"), format!("[{printed:<60}]"));
    assert_eq!(format!("[{network:*^60}]"), format!("[{printed:*^60}]"));
    assert_eq!(format!("[{network:60}]"), format!("[{printed:60}]"));
    assert_eq!(format!("[{network:.4}]"), format!("[{printed:.4}]"));
    assert_eq!(format!("[{network:-<9.4}]"), format!("[{printed:-<9.4}]"));
    assert_eq!(format!("[{network:1}]"), format!("[{printed}]"));
    assert_eq!(printed.parse::<N>().unwrap(), network);
}

#[test]
fn texts() {
    for (text, printed) in V4 {
        is_printed(v4(text), printed);
        is_printed(either(text), printed);
        assert_eq!(Ipv4Network::try_from(text), Ok(v4(text)));
        assert_eq!(IpNetwork::try_from(text), Ok(IpNetwork::V4(v4(text))));
        assert_eq!(IpNetwork::cause_of(text), None);
        assert!(text.parse::<Ipv6Network>().is_err());
    }
    for (text, printed) in V6 {
        is_printed(v6(text), printed);
        is_printed(either(text), printed);
        assert_eq!(Ipv6Network::try_from(text), Ok(v6(text)));
        assert_eq!(IpNetwork::try_from(text), Ok(IpNetwork::V6(v6(text))));
        assert_eq!(IpNetwork::cause_of(text), None);
        assert!(text.parse::<Ipv4Network>().is_err());
    }
}

/// An address is printed as std prints it.
#[test]
fn texts_of_many_addresses() {
    let mut random = Random(0x5eed);
    for _ in 0..100_000 {
        let mut word = || random.word();
        let prefix = word() as u8;
        let v4_address = Ipv4Addr::from_bits(word() as u32);
        let v4_prefix = prefix % 33;
        let network = Ipv4Network::new(v4_address, v4_prefix).unwrap();
        assert_eq!(network.to_string(), format!("{v4_address}/{v4_prefix}"));
        // Some segments are zeros.
        let zeros = (0..8).fold(0_u128, |mask, _| {
            mask << 16 | [0, 0xffff][word() as usize % 2]
        });
        let bits = u128::from(word()) << 64 | u128::from(word());
        let v6_address = Ipv6Addr::from_bits(bits & zeros);
        let v6_prefix = prefix % 129;
        let network = Ipv6Network::new(v6_address, v6_prefix).unwrap();
        assert_eq!(network.to_string(), format!("{v6_address}/{v6_prefix}"));
        assert_eq!(network.to_string().parse(), Ok(network));
    }
}

/// A text that names no network, with the errors of both families, and of either's cause.
#[test]
fn refusals() {
    let v4_address = || IpNetworkError::InvalidAddr("invalid IPv4 address syntax".to_string());
    let v6_address = || IpNetworkError::InvalidAddr("invalid IPv6 address syntax".to_string());
    let address = |text: &str| IpNetworkError::InvalidAddr(text.to_string());
    let format = |text: &str| {
        IpNetworkError::InvalidCidrFormat(format!("CIDR must contain a single '/': {text}"))
    };
    let prefix = || IpNetworkError::InvalidPrefix;
    let rows = [
        ("10.0.0.0/33", prefix(), v6_address(), prefix()),
        ("10.0.0.0/", prefix(), v6_address(), prefix()),
        ("10.0.0.0/-1", prefix(), v6_address(), prefix()),
        ("10.0.0.0/8 ", prefix(), v6_address(), prefix()),
        ("10.0.0.0/255.0.255.0", prefix(), v6_address(), prefix()),
        ("10.0.0.0/256", prefix(), v6_address(), prefix()),
        ("::/129", v4_address(), prefix(), prefix()),
        ("::/", v4_address(), prefix(), prefix()),
        ("::/ffff::", v4_address(), prefix(), prefix()),
        ("::/255.0.0.0", v4_address(), prefix(), prefix()),
        ("10.0.0/8", v4_address(), v6_address(), address("10.0.0/8")),
        (
            "010.0.0.0/8",
            v4_address(),
            v6_address(),
            address("010.0.0.0/8"),
        ),
        (
            " 10.0.0.0/8",
            v4_address(),
            v6_address(),
            address(" 10.0.0.0/8"),
        ),
        (
            "localhost",
            v4_address(),
            v6_address(),
            address("localhost"),
        ),
        ("", v4_address(), v6_address(), address("")),
        ("/", v4_address(), v6_address(), address("/")),
        ("/8", v4_address(), v6_address(), address("/8")),
        (
            "::1%eth0/64",
            v4_address(),
            v6_address(),
            address("::1%eth0/64"),
        ),
        (
            "10.0.0.0/8/8",
            format("10.0.0.0/8/8"),
            format("10.0.0.0/8/8"),
            format("10.0.0.0/8/8"),
        ),
        ("x//", format("x//"), format("x//"), format("x//")),
    ];
    for (text, v4_error, v6_error, cause) in rows {
        assert_eq!(text.parse::<Ipv4Network>(), Err(v4_error.clone()), "{text}");
        assert_eq!(Ipv4Network::try_from(text), Err(v4_error), "{text}");
        assert_eq!(text.parse::<Ipv6Network>(), Err(v6_error.clone()), "{text}");
        assert_eq!(Ipv6Network::try_from(text), Err(v6_error), "{text}");
        assert_eq!(text.parse::<IpNetwork>(), Err(address(text)), "{text}");
        assert_eq!(IpNetwork::try_from(text), Err(address(text)), "{text}");
        assert_eq!(IpNetwork::cause_of(text), Some(cause), "{text}");
    }
}

/// Of a long text a cause has the first characters and an ellipsis, 60 bytes at most.
#[test]
fn long_texts() {
    let shown = |text: &str| match IpNetwork::cause_of(text) {
        Some(IpNetworkError::InvalidAddr(shown)) => shown,
        other => panic!("{other:?}"),
    };
    for len in 1..=60 {
        let text = "x".repeat(len);
        assert_eq!(shown(&text), text);
    }
    for len in [61, 62, 63, 64, 100, 10_000] {
        assert_eq!(shown(&"x".repeat(len)), format!("{}…", "x".repeat(57)));
    }
    for before in 0..4 {
        let before = "x".repeat(before);
        for character in ["é", "€", "🦀"] {
            let fits = (57 - before.len()) / character.len();
            let text = before.clone() + &character.repeat(40);
            assert_eq!(shown(&text), format!("{before}{}…", character.repeat(fits)));
            assert!(shown(&text).len() <= 60);
        }
    }
    let text = "x/".repeat(1_000);
    let cause = IpNetwork::cause_of(&text).unwrap().to_string();
    let first = &text[..57];
    assert_eq!(
        cause,
        format!("invalid cidr format: CIDR must contain a single '/': {first}…")
    );
    let text = format!("10.0.0.0/{}", "3".repeat(1_000));
    assert_eq!(
        IpNetwork::cause_of(&text),
        Some(IpNetworkError::InvalidPrefix)
    );
    assert_eq!(
        text.parse::<IpNetwork>(),
        Err(IpNetworkError::InvalidAddr(text))
    );
}
