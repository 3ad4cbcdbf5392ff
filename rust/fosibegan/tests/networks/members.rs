//! The iterators over the addresses, the hosts and the subnets of a network, from both ends.

use crate::common::{has_items_from_both_ends, v4, v6};
use core::net::{IpAddr, Ipv4Addr, Ipv6Addr};
use fosibegan::{IpNetwork, Ipv4Network, Ipv6Network};

/// Small networks at both ends of the address space and elsewhere, with their first number and how
/// many addresses they have.
const V4: [(&str, u32, usize); 10] = [
    ("0.0.0.0/32", 0, 1),
    ("0.0.0.1/31", 0, 2),
    ("0.0.0.3/30", 0, 4),
    ("0.0.0.9/27", 0, 32),
    ("192.0.2.77/28", 0xc000_0240, 16),
    ("127.255.255.255/26", 0x7fff_ffc0, 64),
    ("255.255.255.255/32", u32::MAX, 1),
    ("255.255.255.254/31", u32::MAX - 1, 2),
    ("255.255.255.252/30", u32::MAX - 3, 4),
    ("255.255.255.224/27", u32::MAX - 31, 32),
];
const V6: [(&str, u128, usize); 10] = [
    ("::/128", 0, 1),
    ("::1/127", 0, 2),
    ("::3/126", 0, 4),
    ("::9/123", 0, 32),
    ("2001:db8::4d/124", 0x2001_0db8 << 96 | 0x40, 16),
    (
        "7fff:ffff:ffff:ffff:ffff:ffff:ffff:ffff/122",
        u128::MAX / 2 - 63,
        64,
    ),
    ("ffff:ffff:ffff:ffff:ffff:ffff:ffff:ffff/128", u128::MAX, 1),
    (
        "ffff:ffff:ffff:ffff:ffff:ffff:ffff:fffe/127",
        u128::MAX - 1,
        2,
    ),
    (
        "ffff:ffff:ffff:ffff:ffff:ffff:ffff:fffc/126",
        u128::MAX - 3,
        4,
    ),
    (
        "ffff:ffff:ffff:ffff:ffff:ffff:ffff:ffe0/123",
        u128::MAX - 31,
        32,
    ),
];

fn v4_addresses(first: u32, count: usize) -> Vec<Ipv4Addr> {
    (0..count as u32)
        .map(|n| Ipv4Addr::from_bits(first + n))
        .collect()
}

fn v6_addresses(first: u128, count: usize) -> Vec<Ipv6Addr> {
    (0..count as u128)
        .map(|n| Ipv6Addr::from_bits(first + n))
        .collect()
}

fn ips<A: Copy + Into<IpAddr>>(addresses: &[A]) -> Vec<IpAddr> {
    addresses.iter().map(|address| (*address).into()).collect()
}

#[test]
fn members() {
    for (text, first, count) in V4 {
        let addresses = v4_addresses(first, count);
        has_items_from_both_ends(v4(text).iter(), &addresses);
        has_items_from_both_ends((&v4(text)).into_iter(), &addresses);
        has_items_from_both_ends(IpNetwork::V4(v4(text)).iter(), &ips(&addresses));
    }
    for (text, first, count) in V6 {
        let addresses = v6_addresses(first, count);
        has_items_from_both_ends(v6(text).iter(), &addresses);
        has_items_from_both_ends((&v6(text)).into_iter(), &addresses);
        has_items_from_both_ends(IpNetwork::V6(v6(text)).iter(), &ips(&addresses));
    }
}

#[test]
fn members_of_large_networks() {
    let mut all = v4("0.0.0.0/0").iter();
    let count = usize::try_from(1_u64 << 32).ok();
    assert_eq!(all.size_hint(), (count.unwrap_or(usize::MAX), count));
    assert_eq!(
        all.nth(0xffff_fffe),
        Some(Ipv4Addr::new(255, 255, 255, 254))
    );
    assert_eq!(all.next(), Some(Ipv4Addr::BROADCAST));
    assert_eq!(all.next(), None);
    assert_eq!(
        v4("0.0.0.0/0").iter().nth_back(0xffff_ffff),
        Some(Ipv4Addr::UNSPECIFIED)
    );
    assert_eq!(v4("0.0.0.0/0").iter().last(), Some(Ipv4Addr::BROADCAST));

    let mut all = v6("::/0").iter();
    assert_eq!(all.size_hint(), (usize::MAX, None));
    assert_eq!(all.next_back(), Some(Ipv6Addr::from_bits(u128::MAX)));
    assert_eq!(
        all.nth(usize::MAX),
        Some(Ipv6Addr::from_bits(usize::MAX as u128))
    );
    assert_eq!(all.last(), Some(Ipv6Addr::from_bits(u128::MAX - 1)));
    let half = v6("8000::/1").iter();
    assert_eq!(half.size_hint(), (usize::MAX, None));
    assert_eq!(half.min(), Some(Ipv6Addr::from_bits(1 << 127)));
}

#[test]
#[should_panic(expected = "does not fit in a usize")]
fn the_count_of_too_many_members() {
    let _ = v6("::/0").iter().count();
}

#[test]
#[should_panic(expected = "does not fit in a usize")]
fn the_count_of_too_many_subnets() {
    let _ = v6("::/0").subnets(128).unwrap().count();
}

#[test]
fn hosts() {
    for (text, first, count) in V4 {
        let all = v4_addresses(first, count);
        let hosts = if count > 2 {
            &all[1..count - 1]
        } else {
            &all[..]
        };
        has_items_from_both_ends(v4(text).hosts(), hosts);
        has_items_from_both_ends(IpNetwork::V4(v4(text)).hosts(), &ips(hosts));
    }
    for (text, first, count) in V6 {
        let all = v6_addresses(first, count);
        let hosts = if count > 2 { &all[1..] } else { &all[..] };
        has_items_from_both_ends(v6(text).hosts(), hosts);
        has_items_from_both_ends(IpNetwork::V6(v6(text)).hosts(), &ips(hosts));
    }
    let all = v4("0.0.0.0/0").hosts();
    assert_eq!(all.clone().next(), Some(Ipv4Addr::new(0, 0, 0, 1)));
    assert_eq!(all.last(), Some(Ipv4Addr::new(255, 255, 255, 254)));
    let all = v6("::/0").hosts();
    assert_eq!(all.clone().next(), Some(Ipv6Addr::LOCALHOST));
    assert_eq!(all.last(), Some(Ipv6Addr::from_bits(u128::MAX)));
}

/// The first hosts and how many there are, as the core has them.
#[test]
fn hosts_compared_with_the_core() {
    for prefix in 0..=32 {
        for number in [0, u32::MAX, 0xc000_024d] {
            let network = Ipv4Network::new(Ipv4Addr::from_bits(number), prefix).unwrap();
            let core = fosibegan_core::Ipv4Network::new_checked(number.into(), prefix).unwrap();
            let core_hosts = fosibegan_core::ipv4_hosts(core).map(u32::from);
            assert!(
                network
                    .hosts()
                    .map(Ipv4Addr::to_bits)
                    .take(300)
                    .eq(core_hosts.take(300))
            );
        }
    }
    for prefix in 0..=128 {
        for number in [0, u128::MAX, 0x2001_0db8 << 96 | 0x4d] {
            let network = Ipv6Network::new(Ipv6Addr::from_bits(number), prefix).unwrap();
            let core = fosibegan_core::Ipv6Network::new_checked(number.into(), prefix).unwrap();
            let core_hosts = fosibegan_core::ipv6_hosts(core).map(u128::from);
            assert!(
                network
                    .hosts()
                    .map(Ipv6Addr::to_bits)
                    .take(300)
                    .eq(core_hosts.take(300))
            );
        }
    }
}

#[test]
fn subnets() {
    for (text, first, count) in V4 {
        let network = v4(text);
        let all = v4_addresses(first, count);
        for prefix in 0..=u8::MAX {
            if prefix < network.prefix() || prefix > 32 {
                assert!(network.subnets(prefix).is_none());
                assert!(IpNetwork::V4(network).subnets(prefix).is_none());
                continue;
            }
            let parts = all.chunks(1 << (32 - prefix));
            let parts: Vec<_> = parts
                .map(|part| Ipv4Network::new(part[0], prefix).unwrap())
                .collect();
            has_items_from_both_ends(network.subnets(prefix).unwrap(), &parts);
            let parts: Vec<IpNetwork> = parts.into_iter().map(IpNetwork::V4).collect();
            has_items_from_both_ends(IpNetwork::V4(network).subnets(prefix).unwrap(), &parts);
        }
    }
    for (text, first, count) in V6 {
        let network = v6(text);
        let all = v6_addresses(first, count);
        for prefix in 0..=u8::MAX {
            if prefix < network.prefix() || prefix > 128 {
                assert!(network.subnets(prefix).is_none());
                assert!(IpNetwork::V6(network).subnets(prefix).is_none());
                continue;
            }
            let parts = all.chunks(1 << (128 - prefix));
            let parts: Vec<_> = parts
                .map(|part| Ipv6Network::new(part[0], prefix).unwrap())
                .collect();
            has_items_from_both_ends(network.subnets(prefix).unwrap(), &parts);
            let parts: Vec<IpNetwork> = parts.into_iter().map(IpNetwork::V6).collect();
            has_items_from_both_ends(IpNetwork::V6(network).subnets(prefix).unwrap(), &parts);
        }
    }
}

#[test]
fn subnets_of_large_networks() {
    has_items_from_both_ends(v4("10.1.2.3/0").subnets(0).unwrap(), &[v4("0.0.0.0/0")]);
    has_items_from_both_ends(v6("2001:db8::/0").subnets(0).unwrap(), &[v6("::/0")]);
    let halves = [v6("::/1"), v6("8000::/1")];
    has_items_from_both_ends(v6("::/0").subnets(1).unwrap(), &halves);

    let mut all = v4("0.0.0.0/0").subnets(32).unwrap();
    assert_eq!(all.nth(0xffff_fffe), Some(v4("255.255.255.254/32")));
    assert_eq!(all.next(), Some(v4("255.255.255.255/32")));
    assert_eq!(all.next(), None);
    let mut all = v6("::/0").subnets(128).unwrap();
    assert_eq!(all.size_hint(), (usize::MAX, None));
    assert_eq!(all.next(), Some(v6("::/128")));
    assert_eq!(all.nth(8), Some(v6("::9/128")));
    assert_eq!(
        all.next_back(),
        Some(v6("ffff:ffff:ffff:ffff:ffff:ffff:ffff:ffff/128"))
    );
    assert_eq!(
        all.max(),
        Some(v6("ffff:ffff:ffff:ffff:ffff:ffff:ffff:fffe/128"))
    );
}
