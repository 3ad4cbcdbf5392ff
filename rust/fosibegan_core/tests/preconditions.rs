//! What a call asks of its caller is checked, also in release: each call here is one step past the
//! edge.

use fosibegan_core::byte_search::{find_far, find_from};
use fosibegan_core::ipnetwork::decimal::{push_decimal, push_number};
use fosibegan_core::ipnetwork::{Address, IpNetwork, Ipv4Addr, Ipv4Network, Ipv6Addr, Ipv6Network};
use fosibegan_core::ipnetwork_blocks::{aggregate_held, AddressSpace, HoldsNetwork};
use fosibegan_core::ipnetwork_index::{AddressIndex, RouteIndex};
use fosibegan_core::ipnetwork_sets::{is_address_set, AddressSet, Difference, Intersection, Union};
use fosibegan_core::ipnetwork_table::PrefixTable;
use fosibegan_core::plain_std::alloc::Global;
use fosibegan_core::plain_std::arrayvec::ArrayString;
use fosibegan_core::plain_std::vec::Vec;
use std::hint::black_box;

fn v4(text: &str) -> Ipv4Network {
    text.parse().unwrap()
}

fn v6() -> IpNetwork {
    IpNetwork::V6("2001:db8::/32".parse().unwrap())
}

/// A test for each call, which has to panic with these words.
macro_rules! refuses {
    ($($name:ident: $why:literal, $call:expr;)*) => {
        $(
            #[test]
            #[should_panic(expected = $why)]
            fn $name() {
                let _ = black_box($call);
            }
        )*
    };
}

refuses! {
    a_search_past_the_end: "find_from: the place is past the end", find_from(b"::/0", 5, b'.');
    a_far_search_past_the_end: "find_far: the place is past the end", find_far(b"::/0", 5, b'.');
    a_text_without_room_for_a_number_of_a_byte: "push_decimal: there is no room", {
        push_decimal(&mut ArrayString::<2>::new(), 1)
    };
    a_text_without_room_for_a_number: "push_number: there is no room", {
        push_number(&mut ArrayString::<38>::new(), 1)
    };
    a_mask_of_33: "mask: the prefix length is greater", Ipv4Addr::mask(33);
    a_mask_of_129: "mask: the prefix length is greater", Ipv6Addr::mask(129);
    a_greatest_address_of_33: "greatest: the prefix length is greater", {
        Ipv4Addr::from([10, 0, 0, 0]).greatest(33)
    };
    a_greatest_address_of_129: "greatest: the prefix length is greater", {
        Ipv6Addr::from(1u128).greatest(129)
    };
    a_block_of_33: "block_at: the prefix length is greater", {
        Ipv4Network::block_at(Ipv4Addr::from([10, 0, 0, 0]), 33)
    };
    a_block_of_129: "block_at: the prefix length is greater", {
        Ipv6Network::block_at(Ipv6Addr::from(1u128), 129)
    };
    an_ipv4_network_of_an_ipv6_one: "held_network: the value holds no network", {
        HoldsNetwork::<Ipv4Network>::held_network(v6())
    };
    an_ipv6_network_of_an_ipv4_one: "held_network: the value holds no network", {
        HoldsNetwork::<Ipv6Network>::held_network(IpNetwork::V4(v4("10.0.0.0/8")))
    };
    an_aggregate_of_both_families: "held_network: the value holds no network", {
        aggregate_held::<Ipv4Network, IpNetwork>(&mut [IpNetwork::V4(v4("10.0.0.0/8")), v6()])
    };
    a_set_of_both_families: "held_network: the value holds no network", {
        is_address_set::<Ipv4Network, IpNetwork>(&[IpNetwork::V4(v4("10.0.0.0/8")), v6()])
    };
    a_union_with_a_list_out_of_order: "Union::of: a list is not an address set", {
        Union::<'_, Ipv4Network>::of(&[], &[v4("10.0.0.0/8"), v4("9.0.0.0/8")]).next()
    };
    an_intersection_with_host_bits: "Intersection::of: a list is not an address set", {
        Intersection::<'_, Ipv4Network>::of(&[v4("10.0.0.1/8")], &[v4("10.0.0.0/8")]).next()
    };
    a_difference_with_a_block_in_another: "Difference::of: a list is not an address set", {
        Difference::<'_, Ipv4Network>::of(&[], &[v4("10.0.0.0/8"), v4("10.1.0.0/16")]).next()
    };
    more_addresses_than_answers: "contains_each: there are not as many answers", {
        let none = AddressSet::<Ipv4Network>::from_networks(Vec::new(Global));
        let index = AddressIndex::from_set(Global, &none).unwrap();
        index.contains_each(&[Ipv4Addr::from([10, 0, 0, 1])], &mut [])
    };
    fewer_addresses_than_answers: "lookup_each: there are not as many answers", {
        let none = PrefixTable::<Ipv4Network, u32>::new(Global);
        let index = RouteIndex::from_table(Global, none).unwrap();
        index.lookup_each(&[], &mut [None])
    };
}
