// Written by scripts/plain out of crates/ipnetwork_index/src/sweep.rt

//! What a table finds in ranges, by one sweep over its blocks in order. The open blocks are on a
//! stack: those whose first address the sweep has reached and whose last address it has not passed.
//! Each lies in the one below it and is longer, so the top one is the longest, and there is at most
//! one of each prefix length.

use crate::plain_std::vec::Vec;
use crate::ipnetwork_index::answers::{Answers, NO_BLOCK};
use crate::ipnetwork_index::indexed_network::IndexedNetwork;
use crate::ipnetwork_index::key::Key;
use crate::plain_std::arrayvec::ArrayVec;
use crate::plain_std::alloc::{AllocError, Global};

// The greatest number of open blocks: one of each prefix length from 0 to 128.
const MOST_OPEN: usize = 129;

/// What a table with these entries, at least one, finds for the last address of each range.
pub(crate) fn answers_by_sweep<N: IndexedNetwork, V: Copy>(
    alloc: Global,
    entries: &[(N, V)],
    lasts: &[N::Addr],
) -> Result<Answers<V>, AllocError> {
    let mut prefixes = Vec::with_capacity(alloc, lasts.len())?;
    let mut values = Vec::with_capacity(alloc, lasts.len())?;
    let mut opened = ArrayVec::<usize, MOST_OPEN>::new();
    let mut count = 0;
    for last in lasts {
        count = open_up_to(entries, count, &mut opened, *last);
        close_before(entries, &mut opened, *last);
        let (prefix, value) = innermost(entries, opened.as_slice());
        prefixes.push(prefix)?;
        values.push(value)?;
    }
    Ok(Answers { prefixes, values })
}

// Opens the blocks after the first `count` that begin at the address or before it, each after
// closing those that end before it. Returns how many of the blocks have then been opened.
fn open_up_to<N: IndexedNetwork, V: Copy>(
    entries: &[(N, V)],
    count: usize,
    opened: &mut ArrayVec<usize, MOST_OPEN>,
    addr: N::Addr,
) -> usize {
    let mut at = count;
    'opening: while at < entries.len() {
        let first = entries[at].0.network();
        if N::number_of(addr).is_less(N::number_of(first)) {
            return at;
        }
        close_before(entries, opened, first);
        opened.push(at);
        at += 1;
    }
    at
}

// Closes blocks from the top of the stack while they end before the address.
fn close_before<N: IndexedNetwork, V: Copy>(
    entries: &[(N, V)],
    opened: &mut ArrayVec<usize, MOST_OPEN>,
    addr: N::Addr,
) {
    'closing: while let Some(place) = opened.as_slice().last().copied() {
        let end = entries[place].0.broadcast();
        if !N::number_of(end).is_less(N::number_of(addr)) {
            return;
        }
        let _ = opened.pop();
    }
}

// The prefix length and the value of the last open block, or `NO_BLOCK` and any value.
fn innermost<N: IndexedNetwork, V: Copy>(entries: &[(N, V)], opened: &[usize]) -> (u8, V) {
    match opened.last().copied() {
        Some(place) => {
            let entry = entries[place];
            (entry.0.prefix(), entry.1)
        }
        None => (NO_BLOCK, entries[0].1),
    }
}
