//! Numbers of more than 32 bits that become a `usize`, which may have 32: they are cut nowhere.

use fosibegan_core::ipnetwork::{Ipv6Addr, Ipv6Network};
use fosibegan_core::ipnetwork_index::BlockIndex;
use fosibegan_core::plain_std::alloc::Global;

/// Blocks close together with some far from them, so that the index has parts for the first ones only.
#[test]
fn a_search_far_past_the_parts_of_an_index_finds_as_each_block_says() {
    let near = (0..1_000u128).map(|number| (0x2001_0db8 << 96) + (number << 65));
    let far = (1..40u128).map(|number| (0x2001_0db8 << 96) + (number << 97) + (number << 65));
    let network = |number: u128| Ipv6Network::new(Ipv6Addr::from(number), 64).unwrap();
    let firsts: Vec<u128> = near.chain(far).collect();
    let networks: Vec<Ipv6Network> = firsts.iter().map(|first| network(*first)).collect();
    let index = BlockIndex::from_networks(Global, &networks, ()).unwrap();
    for first in firsts {
        for asked in [first, first + 1, first + (1 << 64), first ^ (1 << 96), first.wrapping_sub(1), first + (3 << 96)] {
            let address = Ipv6Addr::from(asked);
            let expected = networks.iter().find(|each| each.contains(address)).copied();
            assert_eq!(index.lookup(address).map(|(block, ())| block), expected, "{asked:#x}");
        }
    }
}
