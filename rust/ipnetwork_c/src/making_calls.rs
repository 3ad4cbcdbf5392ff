// Written by scripts/plain out of crates/ipnetwork_c/src/making_calls.rt

//! The calls that make tables of networks, and ranges of tables, in the caller's memory.

use crate::structs::{Ipv4InC, Ipv6InC};
use crate::{range_making, table_making};
use fosibegan_core::ipnetwork::{Ipv4Network, Ipv6Network};

/// Makes a table of networks, in any order and with or without host bits: writes their blocks in
/// ascending order to the front of `blocks`, and for each block the index of its network to the
/// front of `places`. Equal blocks are in the order of their networks, so that
/// `ipnetwork_v4_index_find` finds the last of them. The rest of `blocks` and `places` is
/// unchanged. Returns `PREFIX` if the prefix length of a network is greater than 32, else
/// `SHORT_BUFFER` if there is room for fewer blocks or places than networks.
#[inline]
pub fn ipnetwork_v4_table_make(
    networks: &[Ipv4InC],
    blocks: &mut [Ipv4InC],
    places: &mut [usize],
) -> u32 {
    table_making::make::<Ipv4Network, Ipv4InC>(networks, blocks, places)
}

const _: () = {
    #[export_name = "ipnetwork_v4_table_make"]
    unsafe extern "C" fn called(networks: *const Ipv4InC, networks_length: usize, blocks: *mut Ipv4InC, blocks_length: usize, places: *mut usize, places_length: usize) -> u32 {
        unsafe { ipnetwork_v4_table_make(crate::lent::lent(networks, networks_length), crate::lent::lent_mut(blocks, blocks_length), crate::lent::lent_mut(places, places_length)) }
    }
};

/// The same for IPv6, for prefix lengths up to 128.
#[inline]
pub fn ipnetwork_v6_table_make(
    networks: &[Ipv6InC],
    blocks: &mut [Ipv6InC],
    places: &mut [usize],
) -> u32 {
    table_making::make::<Ipv6Network, Ipv6InC>(networks, blocks, places)
}

const _: () = {
    #[export_name = "ipnetwork_v6_table_make"]
    unsafe extern "C" fn called(networks: *const Ipv6InC, networks_length: usize, blocks: *mut Ipv6InC, blocks_length: usize, places: *mut usize, places_length: usize) -> u32 {
        unsafe { ipnetwork_v6_table_make(crate::lent::lent(networks, networks_length), crate::lent::lent_mut(blocks, blocks_length), crate::lent::lent_mut(places, places_length)) }
    }
};

/// Divides the addresses into ranges where the blocks of a table begin and after they end, so that
/// all addresses of a range have the same longest block. Writes the first address of each range, as
/// a network of only that address, in ascending order, to the front of `ranges`; the place of that
/// block, or `NO_PLACE` if there is none, to the front of `places`; and the number of ranges to
/// `count`. An address before all ranges has no block. The rest of `ranges` and `places` is
/// unchanged. `index` is the index of the blocks, or empty; one of another list only costs time.
/// Returns `PREFIX` if the prefix length of a struct is greater than 32, else `SHORT_BUFFER` if
/// there is room for fewer than two ranges or places for each block.
#[inline]
pub fn ipnetwork_v4_ranges_make(
    blocks: &[Ipv4InC],
    index: &[u32],
    ranges: &mut [Ipv4InC],
    places: &mut [usize],
    count: &mut usize,
) -> u32 {
    range_making::make::<Ipv4Network, Ipv4InC>(blocks, index, ranges, places, count)
}

const _: () = {
    #[export_name = "ipnetwork_v4_ranges_make"]
    unsafe extern "C" fn called(blocks: *const Ipv4InC, blocks_length: usize, index: *const u32, index_length: usize, ranges: *mut Ipv4InC, ranges_length: usize, places: *mut usize, places_length: usize, count: &mut usize) -> u32 {
        unsafe { ipnetwork_v4_ranges_make(crate::lent::lent(blocks, blocks_length), crate::lent::lent(index, index_length), crate::lent::lent_mut(ranges, ranges_length), crate::lent::lent_mut(places, places_length), count) }
    }
};

/// The same for IPv6, for prefix lengths up to 128.
#[inline]
pub fn ipnetwork_v6_ranges_make(
    blocks: &[Ipv6InC],
    index: &[u32],
    ranges: &mut [Ipv6InC],
    places: &mut [usize],
    count: &mut usize,
) -> u32 {
    range_making::make::<Ipv6Network, Ipv6InC>(blocks, index, ranges, places, count)
}

const _: () = {
    #[export_name = "ipnetwork_v6_ranges_make"]
    unsafe extern "C" fn called(blocks: *const Ipv6InC, blocks_length: usize, index: *const u32, index_length: usize, ranges: *mut Ipv6InC, ranges_length: usize, places: *mut usize, places_length: usize, count: &mut usize) -> u32 {
        unsafe { ipnetwork_v6_ranges_make(crate::lent::lent(blocks, blocks_length), crate::lent::lent(index, index_length), crate::lent::lent_mut(ranges, ranges_length), crate::lent::lent_mut(places, places_length), count) }
    }
};

/// Like `ipnetwork_v4_ranges_make`, but writes for each range, instead of the place of its longest
/// block, the number that `numbers` has at that place, such as the place of the block's network in
/// the caller's list. Returns `SHORT_BUFFER`, before any other fault, if there are fewer numbers
/// than blocks.
#[inline]
pub fn ipnetwork_v4_ranges_make_numbered(
    blocks: &[Ipv4InC],
    numbers: &[usize],
    index: &[u32],
    ranges: &mut [Ipv4InC],
    beside: &mut [usize],
    count: &mut usize,
) -> u32 {
    range_making::make_numbered::<Ipv4Network, Ipv4InC>(
        blocks, numbers, index, ranges, beside, count,
    )
}

const _: () = {
    #[export_name = "ipnetwork_v4_ranges_make_numbered"]
    unsafe extern "C" fn called(blocks: *const Ipv4InC, blocks_length: usize, numbers: *const usize, numbers_length: usize, index: *const u32, index_length: usize, ranges: *mut Ipv4InC, ranges_length: usize, beside: *mut usize, beside_length: usize, count: &mut usize) -> u32 {
        unsafe { ipnetwork_v4_ranges_make_numbered(crate::lent::lent(blocks, blocks_length), crate::lent::lent(numbers, numbers_length), crate::lent::lent(index, index_length), crate::lent::lent_mut(ranges, ranges_length), crate::lent::lent_mut(beside, beside_length), count) }
    }
};

/// The same for IPv6, for prefix lengths up to 128.
#[inline]
pub fn ipnetwork_v6_ranges_make_numbered(
    blocks: &[Ipv6InC],
    numbers: &[usize],
    index: &[u32],
    ranges: &mut [Ipv6InC],
    beside: &mut [usize],
    count: &mut usize,
) -> u32 {
    range_making::make_numbered::<Ipv6Network, Ipv6InC>(
        blocks, numbers, index, ranges, beside, count,
    )
}

const _: () = {
    #[export_name = "ipnetwork_v6_ranges_make_numbered"]
    unsafe extern "C" fn called(blocks: *const Ipv6InC, blocks_length: usize, numbers: *const usize, numbers_length: usize, index: *const u32, index_length: usize, ranges: *mut Ipv6InC, ranges_length: usize, beside: *mut usize, beside_length: usize, count: &mut usize) -> u32 {
        unsafe { ipnetwork_v6_ranges_make_numbered(crate::lent::lent(blocks, blocks_length), crate::lent::lent(numbers, numbers_length), crate::lent::lent(index, index_length), crate::lent::lent_mut(ranges, ranges_length), crate::lent::lent_mut(beside, beside_length), count) }
    }
};
