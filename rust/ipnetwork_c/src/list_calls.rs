// Written by scripts/plain out of crates/ipnetwork_c/src/list_calls.rt

//! The calls for lists of networks in the caller's memory: searches for an address, operations on
//! sets, and the blocks of a range of addresses.

use crate::block_calls::range;
use crate::set_operations::{Operation, operate};
use crate::structs::{Ipv4InC, Ipv6InC, PlaceInC, address_of};
use crate::{ranges, sets, tables};
use fosibegan_core::ipnetwork::{Ipv4Addr, Ipv4Network, Ipv6Network};

/// Writes to `answer` 1 if an address is in the set of a list, else 0, for the list of a set, as
/// `ipnetwork_v4_aggregate` leaves it. For any other list, 1 is right too, but 0 says nothing. If
/// the structs ascend, the search ends at the last struct whose own address is at or before this
/// one. Returns `PREFIX` exactly if the prefix length of the struct at which the search ends is
/// greater than 32, which never occurs in the list of a set. `index` is the index of the blocks, as
/// `ipnetwork_v4_index_make` makes it, or empty. It only says where the search begins: an index of
/// another list makes the search slower, but the answer is the same if the blocks ascend.
#[inline(always)]
pub fn ipnetwork_v4_index_contains(
    blocks: &[Ipv4InC],
    index: &[u32],
    address: &[u8; 4],
    answer: &mut u8,
) -> u32 {
    sets::contains::<Ipv4Network, Ipv4InC>(blocks, index, address, answer)
}

const _: () = {
    #[export_name = "ipnetwork_v4_index_contains"]
    unsafe extern "C" fn called(blocks: *const Ipv4InC, blocks_length: usize, index: *const u32, index_length: usize, address: &[u8; 4], answer: &mut u8) -> u32 {
        unsafe { ipnetwork_v4_index_contains(crate::lent::lent(blocks, blocks_length), crate::lent::lent(index, index_length), address, answer) }
    }
};

/// The same for IPv6, for prefix lengths up to 128.
#[inline(always)]
pub fn ipnetwork_v6_index_contains(
    blocks: &[Ipv6InC],
    index: &[u32],
    address: &[u8; 16],
    answer: &mut u8,
) -> u32 {
    sets::contains::<Ipv6Network, Ipv6InC>(blocks, index, address, answer)
}

const _: () = {
    #[export_name = "ipnetwork_v6_index_contains"]
    unsafe extern "C" fn called(blocks: *const Ipv6InC, blocks_length: usize, index: *const u32, index_length: usize, address: &[u8; 16], answer: &mut u8) -> u32 {
        unsafe { ipnetwork_v6_index_contains(crate::lent::lent(blocks, blocks_length), crate::lent::lent(index, index_length), address, answer) }
    }
};

/// Writes to `place` the place of the longest block of a table that has the address. A table is
/// blocks without host bits in ascending order by `ipnetwork_v4_compare`, some of which may contain
/// others. Returns `NO_MEMBER` if no block has the address. For any other list, the block at the
/// place has the address too, but there may be a longer one, and `NO_MEMBER` says nothing. Returns
/// `PREFIX` at the first struct that the search reaches whose prefix length is greater than 32,
/// which never occurs in a table. `index` is the index of the blocks, as
/// `ipnetwork_v4_table_index_make` makes it, or empty. Whatever it holds, the result is the same if
/// the blocks ascend.
#[inline(always)]
pub fn ipnetwork_v4_index_find(
    blocks: &[Ipv4InC],
    index: &[u32],
    address: &[u8; 4],
    place: &mut usize,
) -> u32 {
    tables::find::<Ipv4Network, Ipv4InC>(blocks, index, Ipv4Addr::from(*address), place)
}

const _: () = {
    #[export_name = "ipnetwork_v4_index_find"]
    unsafe extern "C" fn called(blocks: *const Ipv4InC, blocks_length: usize, index: *const u32, index_length: usize, address: &[u8; 4], place: &mut usize) -> u32 {
        unsafe { ipnetwork_v4_index_find(crate::lent::lent(blocks, blocks_length), crate::lent::lent(index, index_length), address, place) }
    }
};

/// The same for IPv6, for prefix lengths up to 128.
#[inline(always)]
pub fn ipnetwork_v6_index_find(
    blocks: &[Ipv6InC],
    index: &[u32],
    address: &[u8; 16],
    place: &mut usize,
) -> u32 {
    tables::find::<Ipv6Network, Ipv6InC>(blocks, index, address_of(address), place)
}

const _: () = {
    #[export_name = "ipnetwork_v6_index_find"]
    unsafe extern "C" fn called(blocks: *const Ipv6InC, blocks_length: usize, index: *const u32, index_length: usize, address: &[u8; 16], place: &mut usize) -> u32 {
        unsafe { ipnetwork_v6_index_find(crate::lent::lent(blocks, blocks_length), crate::lent::lent(index, index_length), address, place) }
    }
};

/// Writes to `place` the place of the last range that begins at or before an address, by an index
/// of the ranges, as `ipnetwork_v4_table_index_make` makes it, or by none. For the ranges and places
/// of a table, as `ipnetwork_v4_ranges_make` makes them, it is the place that
/// `ipnetwork_v4_index_find` finds in the table. Returns `NO_MEMBER` if there is no such range, or if its place is missing or
/// `NO_PLACE`. Whatever the index holds, the result is the same if the ranges ascend.
#[inline(always)]
pub fn ipnetwork_v4_ranges_find(
    ranges: &[Ipv4InC],
    places: &[usize],
    index: &[u32],
    address: &[u8; 4],
    place: &mut usize,
) -> u32 {
    ranges::find::<Ipv4Network, Ipv4InC>(address, ranges, places, index, place)
}

const _: () = {
    #[export_name = "ipnetwork_v4_ranges_find"]
    unsafe extern "C" fn called(ranges: *const Ipv4InC, ranges_length: usize, places: *const usize, places_length: usize, index: *const u32, index_length: usize, address: &[u8; 4], place: &mut usize) -> u32 {
        unsafe { ipnetwork_v4_ranges_find(crate::lent::lent(ranges, ranges_length), crate::lent::lent(places, places_length), crate::lent::lent(index, index_length), address, place) }
    }
};

/// The same for IPv6, for what `ipnetwork_v6_ranges_make` makes.
#[inline(always)]
pub fn ipnetwork_v6_ranges_find(
    ranges: &[Ipv6InC],
    places: &[usize],
    index: &[u32],
    address: &[u8; 16],
    place: &mut usize,
) -> u32 {
    ranges::find::<Ipv6Network, Ipv6InC>(address, ranges, places, index, place)
}

const _: () = {
    #[export_name = "ipnetwork_v6_ranges_find"]
    unsafe extern "C" fn called(ranges: *const Ipv6InC, ranges_length: usize, places: *const usize, places_length: usize, index: *const u32, index_length: usize, address: &[u8; 16], place: &mut usize) -> u32 {
        unsafe { ipnetwork_v6_ranges_find(crate::lent::lent(ranges, ranges_length), crate::lent::lent(places, places_length), crate::lent::lent(index, index_length), address, place) }
    }
};

/// Returns what `ipnetwork_v4_ranges_find` writes: the place of the last range that begins at or
/// before an address, or `NO_PLACE`, 2^64 - 1, if it finds none.
#[inline(always)]
pub fn ipnetwork_v4_ranges_place(
    ranges: &[Ipv4InC],
    places: &[usize],
    index: &[u32],
    address: &[u8; 4],
) -> PlaceInC {
    PlaceInC {
        place: ranges::place_of::<Ipv4Network, Ipv4InC>(address, ranges, places, index),
    }
}

const _: () = {
    #[export_name = "ipnetwork_v4_ranges_place"]
    unsafe extern "C" fn called(ranges: *const Ipv4InC, ranges_length: usize, places: *const usize, places_length: usize, index: *const u32, index_length: usize, address: &[u8; 4]) -> PlaceInC {
        unsafe { ipnetwork_v4_ranges_place(crate::lent::lent(ranges, ranges_length), crate::lent::lent(places, places_length), crate::lent::lent(index, index_length), address) }
    }
};

/// The same for IPv6.
#[inline(always)]
pub fn ipnetwork_v6_ranges_place(
    ranges: &[Ipv6InC],
    places: &[usize],
    index: &[u32],
    address: &[u8; 16],
) -> PlaceInC {
    PlaceInC {
        place: ranges::place_of::<Ipv6Network, Ipv6InC>(address, ranges, places, index),
    }
}

const _: () = {
    #[export_name = "ipnetwork_v6_ranges_place"]
    unsafe extern "C" fn called(ranges: *const Ipv6InC, ranges_length: usize, places: *const usize, places_length: usize, index: *const u32, index_length: usize, address: &[u8; 16]) -> PlaceInC {
        unsafe { ipnetwork_v6_ranges_place(crate::lent::lent(ranges, ranges_length), crate::lent::lent(places, places_length), crate::lent::lent(index, index_length), address) }
    }
};

/// Writes to the front of `blocks` the blocks of the addresses that are in at least one of two
/// sets: the fewest possible, in ascending order. `count` is their number, at most that of both
/// lists together. Returns `PREFIX` if a prefix length is greater than 32, else `NO_SET` if one of
/// the lists is not the list of a set, as `ipnetwork_v4_aggregate` leaves it, else `SHORT_BUFFER`
/// if there is no room for the blocks, and then writes only `count`.
#[inline]
pub fn ipnetwork_v4_union(
    first: &[Ipv4InC],
    second: &[Ipv4InC],
    blocks: &mut [Ipv4InC],
    count: &mut usize,
) -> u32 {
    operate::<Ipv4Network, Ipv4InC>(Operation::Union, first, second, blocks, count)
}

const _: () = {
    #[export_name = "ipnetwork_v4_union"]
    unsafe extern "C" fn called(first: *const Ipv4InC, first_length: usize, second: *const Ipv4InC, second_length: usize, blocks: *mut Ipv4InC, blocks_length: usize, count: &mut usize) -> u32 {
        unsafe { ipnetwork_v4_union(crate::lent::lent(first, first_length), crate::lent::lent(second, second_length), crate::lent::lent_mut(blocks, blocks_length), count) }
    }
};

/// The same for IPv6, for prefix lengths up to 128.
#[inline]
pub fn ipnetwork_v6_union(
    first: &[Ipv6InC],
    second: &[Ipv6InC],
    blocks: &mut [Ipv6InC],
    count: &mut usize,
) -> u32 {
    operate::<Ipv6Network, Ipv6InC>(Operation::Union, first, second, blocks, count)
}

const _: () = {
    #[export_name = "ipnetwork_v6_union"]
    unsafe extern "C" fn called(first: *const Ipv6InC, first_length: usize, second: *const Ipv6InC, second_length: usize, blocks: *mut Ipv6InC, blocks_length: usize, count: &mut usize) -> u32 {
        unsafe { ipnetwork_v6_union(crate::lent::lent(first, first_length), crate::lent::lent(second, second_length), crate::lent::lent_mut(blocks, blocks_length), count) }
    }
};

/// Like `ipnetwork_v4_union`, but writes the blocks of the addresses that are in both sets.
#[inline]
pub fn ipnetwork_v4_intersection(
    first: &[Ipv4InC],
    second: &[Ipv4InC],
    blocks: &mut [Ipv4InC],
    count: &mut usize,
) -> u32 {
    operate::<Ipv4Network, Ipv4InC>(Operation::Intersection, first, second, blocks, count)
}

const _: () = {
    #[export_name = "ipnetwork_v4_intersection"]
    unsafe extern "C" fn called(first: *const Ipv4InC, first_length: usize, second: *const Ipv4InC, second_length: usize, blocks: *mut Ipv4InC, blocks_length: usize, count: &mut usize) -> u32 {
        unsafe { ipnetwork_v4_intersection(crate::lent::lent(first, first_length), crate::lent::lent(second, second_length), crate::lent::lent_mut(blocks, blocks_length), count) }
    }
};

/// The same for IPv6, for prefix lengths up to 128.
#[inline]
pub fn ipnetwork_v6_intersection(
    first: &[Ipv6InC],
    second: &[Ipv6InC],
    blocks: &mut [Ipv6InC],
    count: &mut usize,
) -> u32 {
    operate::<Ipv6Network, Ipv6InC>(Operation::Intersection, first, second, blocks, count)
}

const _: () = {
    #[export_name = "ipnetwork_v6_intersection"]
    unsafe extern "C" fn called(first: *const Ipv6InC, first_length: usize, second: *const Ipv6InC, second_length: usize, blocks: *mut Ipv6InC, blocks_length: usize, count: &mut usize) -> u32 {
        unsafe { ipnetwork_v6_intersection(crate::lent::lent(first, first_length), crate::lent::lent(second, second_length), crate::lent::lent_mut(blocks, blocks_length), count) }
    }
};

/// Like `ipnetwork_v4_union`, but writes the blocks of the addresses that are in the first set and
/// not in the second. There may be more of them than in both lists together.
#[inline]
pub fn ipnetwork_v4_difference(
    first: &[Ipv4InC],
    second: &[Ipv4InC],
    blocks: &mut [Ipv4InC],
    count: &mut usize,
) -> u32 {
    operate::<Ipv4Network, Ipv4InC>(Operation::Difference, first, second, blocks, count)
}

const _: () = {
    #[export_name = "ipnetwork_v4_difference"]
    unsafe extern "C" fn called(first: *const Ipv4InC, first_length: usize, second: *const Ipv4InC, second_length: usize, blocks: *mut Ipv4InC, blocks_length: usize, count: &mut usize) -> u32 {
        unsafe { ipnetwork_v4_difference(crate::lent::lent(first, first_length), crate::lent::lent(second, second_length), crate::lent::lent_mut(blocks, blocks_length), count) }
    }
};

/// The same for IPv6, for prefix lengths up to 128.
#[inline]
pub fn ipnetwork_v6_difference(
    first: &[Ipv6InC],
    second: &[Ipv6InC],
    blocks: &mut [Ipv6InC],
    count: &mut usize,
) -> u32 {
    operate::<Ipv6Network, Ipv6InC>(Operation::Difference, first, second, blocks, count)
}

const _: () = {
    #[export_name = "ipnetwork_v6_difference"]
    unsafe extern "C" fn called(first: *const Ipv6InC, first_length: usize, second: *const Ipv6InC, second_length: usize, blocks: *mut Ipv6InC, blocks_length: usize, count: &mut usize) -> u32 {
        unsafe { ipnetwork_v6_difference(crate::lent::lent(first, first_length), crate::lent::lent(second, second_length), crate::lent::lent_mut(blocks, blocks_length), count) }
    }
};

/// Writes to the front of `blocks` the blocks of the addresses from `first` to `last`, both
/// included: the fewest possible, in ascending order, and at most 62. `count` is their number.
/// Returns `SHORT_BUFFER` if there is no room for them, and then writes only `count`; `NO_RANGE` if
/// `first` comes after `last`.
#[inline]
pub fn ipnetwork_v4_range_to_blocks(
    first: &[u8; 4],
    last: &[u8; 4],
    blocks: &mut [Ipv4InC],
    count: &mut usize,
) -> u32 {
    range::<Ipv4Network, Ipv4InC>(Ipv4Addr::from(*first), Ipv4Addr::from(*last), blocks, count)
}

const _: () = {
    #[export_name = "ipnetwork_v4_range_to_blocks"]
    unsafe extern "C" fn called(first: &[u8; 4], last: &[u8; 4], blocks: *mut Ipv4InC, blocks_length: usize, count: &mut usize) -> u32 {
        unsafe { ipnetwork_v4_range_to_blocks(first, last, crate::lent::lent_mut(blocks, blocks_length), count) }
    }
};

/// The same for IPv6, with at most 254 blocks.
#[inline]
pub fn ipnetwork_v6_range_to_blocks(
    first: &[u8; 16],
    last: &[u8; 16],
    blocks: &mut [Ipv6InC],
    count: &mut usize,
) -> u32 {
    range::<Ipv6Network, Ipv6InC>(address_of(first), address_of(last), blocks, count)
}

const _: () = {
    #[export_name = "ipnetwork_v6_range_to_blocks"]
    unsafe extern "C" fn called(first: &[u8; 16], last: &[u8; 16], blocks: *mut Ipv6InC, blocks_length: usize, count: &mut usize) -> u32 {
        unsafe { ipnetwork_v6_range_to_blocks(first, last, crate::lent::lent_mut(blocks, blocks_length), count) }
    }
};
