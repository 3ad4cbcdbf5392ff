// Written by scripts/plain out of crates/ipnetwork_c/src/sets.rt

//! Searches the lists of sets: the maximal blocks of their union, in ascending order, as
//! `aggregate_held` leaves them.

use crate::fault::{OK, PREFIX};
use crate::numbered::Numbered;
use crate::search_hint::SearchHint;
use crate::upper_bound::{guess_by_last, upper_bound_at_once, upper_bound_by_halves};
use fosibegan_core::ipnetwork_blocks::AddressSpace;

/// Writes 1 if an address is in the set of a list, else 0, by an index of the list, or by none. If
/// the list is not the list of a set, an address may be missed. Returns `PREFIX` if the prefix
/// length of the struct at which the search ends does not fit.
#[inline(always)]
pub(crate) fn contains<N: AddressSpace, H: SearchHint<N>>(
    list: &[H],
    index: &[u32],
    address: &H::Octets,
    answer: &mut u8,
) -> u32 {
    let number = H::number_in(address);
    let guess = guess_by_last::<N, H>(list, index, number);
    contains_near::<N, H>(list, index, number, guess, answer)
}

/// The same for the number of an address, with a guess of how many blocks begin at or before it.
#[inline(always)]
pub(crate) fn contains_near<N: AddressSpace, H: SearchHint<N>>(
    list: &[H],
    index: &[u32],
    number: H::Number,
    guess: usize,
    answer: &mut u8,
) -> u32 {
    match found_near::<N, H>(list, index, number, guess) {
        Some(found) => {
            *answer = found;
            OK
        }
        None => PREFIX,
    }
}

// Returns the answer, or `None` if the prefix length does not fit.
#[inline(always)]
fn found_near<N: AddressSpace, H: Numbered<N>>(
    list: &[H],
    index: &[u32],
    number: H::Number,
    guess: usize,
) -> Option<u8> {
    if let Some(count) = upper_bound_at_once::<N, H>(list, number, guess) {
        return answer_after::<N, H>(list, count, number);
    }
    found_by_halves::<N, H>(list, index, number)
}

// The same, if the search does not end at the guess.
#[inline(never)]
fn found_by_halves<N: AddressSpace, H: Numbered<N>>(
    list: &[H],
    index: &[u32],
    number: H::Number,
) -> Option<u8> {
    let count = upper_bound_by_halves::<N, H>(list, index, number);
    answer_after::<N, H>(list, count, number)
}

// The same, if the search ends after the first `count` structs.
#[inline(always)]
fn answer_after<N: AddressSpace, H: Numbered<N>>(
    list: &[H],
    count: usize,
    number: H::Number,
) -> Option<u8> {
    if count == 0 {
        return Some(0);
    }
    let last = list[count - 1];
    if !last.fits() {
        return None;
    }
    Some(u8::from(last.has(number)))
}
