// Written by scripts/plain out of crates/ipnetwork_c/src/index_making.rt

//! Makes indexes of lists in the caller's memory.

use crate::fault::{NO_SET, OK, PREFIX};
use crate::listed::all_fit;
use crate::numbered::Numbered;
use crate::structs::{Ipv4InC, Ipv6InC};
use fosibegan_core::ipnetwork::{Ipv4Network, Ipv6Network};
use fosibegan_core::ipnetwork_blocks::AddressSpace;
use fosibegan_core::ipnetwork_sets::is_address_set;

/// Writes to `index_length` how many numbers an index of `block_count` blocks should have: four for
/// each block, but at most 2^20. A shorter index makes a search slower, a longer one hardly faster.
#[inline]
pub fn ipnetwork_index_size(block_count: usize, index_length: &mut usize) -> u32 {
    *index_length = block_count.saturating_mul(4).min(1 << 20);
    OK
}

const _: () = {
    #[export_name = "ipnetwork_index_size"]
    extern "C" fn called(block_count: usize, index_length: &mut usize) -> u32 {
        ipnetwork_index_size(block_count, index_length)
    }
};

/// Writes the index of the blocks of a set over all of `index`, so that a search of the set by
/// `ipnetwork_v4_index_contains` takes few steps. The addresses from the first of the list to the
/// last are divided into parts of equal size, the least possible power of two: the index has the
/// exponent of that power, and then, for each part but the first, how many structs of the list
/// begin before it. Returns `PREFIX` if a prefix length is greater than 32, else `NO_SET` if the
/// list is not that of a set.
#[inline]
pub fn ipnetwork_v4_index_make(blocks: &[Ipv4InC], index: &mut [u32]) -> u32 {
    make_of_set::<Ipv4Network, Ipv4InC>(blocks, index)
}

const _: () = {
    #[export_name = "ipnetwork_v4_index_make"]
    unsafe extern "C" fn called(blocks: *const Ipv4InC, blocks_length: usize, index: *mut u32, index_length: usize) -> u32 {
        unsafe { ipnetwork_v4_index_make(crate::lent::lent(blocks, blocks_length), crate::lent::lent_mut(index, index_length)) }
    }
};

/// The same for IPv6, with prefix lengths up to 128.
#[inline]
pub fn ipnetwork_v6_index_make(blocks: &[Ipv6InC], index: &mut [u32]) -> u32 {
    make_of_set::<Ipv6Network, Ipv6InC>(blocks, index)
}

const _: () = {
    #[export_name = "ipnetwork_v6_index_make"]
    unsafe extern "C" fn called(blocks: *const Ipv6InC, blocks_length: usize, index: *mut u32, index_length: usize) -> u32 {
        unsafe { ipnetwork_v6_index_make(crate::lent::lent(blocks, blocks_length), crate::lent::lent_mut(index, index_length)) }
    }
};

/// Writes the index of a list that need not be that of a set, so that a search of a table by
/// `ipnetwork_v4_index_find`, or of its ranges by `ipnetwork_v4_ranges_find`, takes few steps. No
/// struct is refused.
#[inline]
pub fn ipnetwork_v4_table_index_make(blocks: &[Ipv4InC], index: &mut [u32]) -> u32 {
    make::<Ipv4Network, Ipv4InC>(blocks, index);
    OK
}

const _: () = {
    #[export_name = "ipnetwork_v4_table_index_make"]
    unsafe extern "C" fn called(blocks: *const Ipv4InC, blocks_length: usize, index: *mut u32, index_length: usize) -> u32 {
        unsafe { ipnetwork_v4_table_index_make(crate::lent::lent(blocks, blocks_length), crate::lent::lent_mut(index, index_length)) }
    }
};

/// The same for IPv6.
#[inline]
pub fn ipnetwork_v6_table_index_make(blocks: &[Ipv6InC], index: &mut [u32]) -> u32 {
    make::<Ipv6Network, Ipv6InC>(blocks, index);
    OK
}

const _: () = {
    #[export_name = "ipnetwork_v6_table_index_make"]
    unsafe extern "C" fn called(blocks: *const Ipv6InC, blocks_length: usize, index: *mut u32, index_length: usize) -> u32 {
        unsafe { ipnetwork_v6_table_index_make(crate::lent::lent(blocks, blocks_length), crate::lent::lent_mut(index, index_length)) }
    }
};

// Makes the index if the list is that of a set.
fn make_of_set<N: AddressSpace, H: Numbered<N>>(list: &[H], index: &mut [u32]) -> u32 {
    if !all_fit::<N, H>(list) {
        return PREFIX;
    }
    if !is_address_set::<N, H>(list) {
        return NO_SET;
    }
    make::<N, H>(list, index);
    OK
}

// Makes the index in one pass over the list.
fn make<N: AddressSpace, H: Numbered<N>>(list: &[H], index: &mut [u32]) {
    if index.is_empty() {
        return;
    }
    let shift = least_shift::<N, H>(list, index.len());
    index[0] = shift;
    let mut at = 0;
    for part in 1..index.len() {
        at = start_from::<N, H>(list, at, shift, part);
        index[part] = at.min(u32::MAX as usize) as u32;
    }
}

// Returns the binary logarithm of the least size at which `count` parts cover the list.
fn least_shift<N: AddressSpace, H: Numbered<N>>(list: &[H], count: usize) -> u32 {
    let half = H::half();
    if list.is_empty() {
        return 0;
    }
    let first = list[0].own_number();
    let last = list[list.len() - 1].own_number();
    let mut shift = 0;
    while shift <= half {
        if H::part_of(last, first, shift) < count {
            return shift;
        }
        shift += 1;
    }
    half + 1
}

// Returns how many structs of the list begin before the part. The last struct before `from` does.
fn start_from<N: AddressSpace, H: Numbered<N>>(
    list: &[H],
    from: usize,
    shift: u32,
    part: usize,
) -> usize {
    let mut at = from;
    while at < list.len() {
        if !begins_before::<N, H>(list[at], list[0], shift, part) {
            return at;
        }
        at += 1;
    }
    at
}

// Returns whether the struct begins before this part, counted from the first struct's number.
fn begins_before<N: AddressSpace, H: Numbered<N>>(
    held: H,
    first: H,
    shift: u32,
    part: usize,
) -> bool {
    H::part_of(held.own_number(), first.own_number(), shift) < part
}
