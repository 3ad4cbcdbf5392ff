// Written by scripts/plain out of crates/ipnetwork_c/src/upper_bound.rt

//! Finds how many structs of a list begin at or before a number, by a binary search or an index.

use crate::numbered::Numbered;
use crate::search_hint::SearchHint;
use fosibegan_core::ipnetwork_blocks::AddressSpace;

/// Returns how many structs of an ascending list begin at or before the number; for any other list,
/// a number of structs of which the last does, and the next does not. The index only says where the
/// search begins: the index of another list only costs time.
#[inline(always)]
pub(crate) fn upper_bound<N: AddressSpace, H: SearchHint<N>>(
    list: &[H],
    index: &[u32],
    number: H::Number,
) -> usize {
    let guess = guess_by_last::<N, H>(list, index, number);
    match upper_bound_at_once::<N, H>(list, number, guess) {
        Some(count) => count,
        None => upper_bound_by_halves::<N, H>(list, index, number),
    }
}

/// Guesses how many structs begin at or before the number, by the last struct of its part: for
/// lists with mostly one struct in a part. No branch depends on whether that struct does.
#[inline(always)]
pub(crate) fn guess_by_last<N: AddressSpace, H: SearchHint<N>>(
    list: &[H],
    index: &[u32],
    number: H::Number,
) -> usize {
    if list.is_empty() || index.is_empty() {
        return 0;
    }
    let part = part_of::<N, H>(list, index, number);
    let end = part_end(index, part, list.len()).min(list.len());
    let last = end.max(1) - 1;
    last + one_up_to::<N, H>(list, last, number)
}

/// The same by the first three structs of the part: for lists with often several structs in a part.
#[inline(always)]
pub(crate) fn guess_by_three<N: AddressSpace, H: SearchHint<N>>(
    list: &[H],
    index: &[u32],
    number: H::Number,
) -> usize {
    if list.len() < 3 || index.is_empty() {
        return 0;
    }
    let part = part_of::<N, H>(list, index, number);
    let from = start_of(index, part).min(list.len() - 3);
    let first = one_up_to::<N, H>(list, from, number);
    let second = one_up_to::<N, H>(list, from + 1, number);
    from + first + second + one_up_to::<N, H>(list, from + 2, number)
}

/// Returns how many structs begin at or before the number, if that is the guess.
#[inline(always)]
pub(crate) fn upper_bound_at_once<N: AddressSpace, H: Numbered<N>>(
    list: &[H],
    number: H::Number,
    guess: usize,
) -> Option<usize> {
    if guess > list.len() {
        return None;
    }
    if !next_is_after::<N, H>(list, guess, number) || !last_is_up_to::<N, H>(list, guess, number) {
        return None;
    }
    Some(guess)
}

/// Returns the same by a binary search of the number's part, extended to the start or end of the
/// list where the bounds in the index are wrong.
#[inline(never)]
pub(crate) fn upper_bound_by_halves<N: AddressSpace, H: Numbered<N>>(
    list: &[H],
    index: &[u32],
    number: H::Number,
) -> usize {
    if list.is_empty() || index.is_empty() {
        return upper_bound_between::<N, H>(list, 0, list.len(), number);
    }
    let part = part_of::<N, H>(list, index, number);
    let from = from_start::<N, H>(list, start_of(index, part), number);
    let to = end_of::<N, H>(list, index, part, from, number);
    upper_bound_between::<N, H>(list, from, to, number)
}

// The same between `begin` and `end`, if the struct before `begin` begins at or before the number,
// and the one at `end` after it. Each step keeps a count of structs and not an end, so that it
// compiles to no branch that depends on the list.
fn upper_bound_between<N: AddressSpace, H: Numbered<N>>(
    list: &[H],
    begin: usize,
    end: usize,
    number: H::Number,
) -> usize {
    let mut from = begin;
    let mut count = end - begin;
    while count > 0 {
        let half = count / 2;
        if begins_up_to::<N, H>(list[from + half], number) {
            from += half + 1;
            count -= half + 1;
        } else {
            count = half;
        }
    }
    from
}

// Returns whether the struct's own address is at or before the number.
#[inline(always)]
fn begins_up_to<N: AddressSpace, H: Numbered<N>>(held: H, number: H::Number) -> bool {
    H::is_up_to(held.own_number(), number)
}

// Returns the part of the index in which the number lies.
#[inline(always)]
fn part_of<N: AddressSpace, H: Numbered<N>>(list: &[H], index: &[u32], number: H::Number) -> usize {
    let first = list[0];
    let part = H::part_of(number, first.own_number(), index[0] & H::half());
    part.min(index.len() - 1)
}

// Returns where the part begins by the index.
#[inline(always)]
fn start_of(index: &[u32], part: usize) -> usize {
    if part == 0 {
        return 0;
    }
    index[part] as usize
}

// Returns where the part ends by the index. The last part ends with the list.
#[inline(always)]
fn part_end(index: &[u32], part: usize, count: usize) -> usize {
    if part + 1 == index.len() {
        return count;
    }
    index[part + 1] as usize
}

// Returns 1 if the struct there seems to begin at or before the number, else 0.
#[inline(always)]
fn one_up_to<N: AddressSpace, H: SearchHint<N>>(
    list: &[H],
    place: usize,
    number: H::Number,
) -> usize {
    usize::from(list[place].seems_up_to(number))
}

// Returns whether the struct at index `at` begins after the number, or there is none.
#[inline(always)]
fn next_is_after<N: AddressSpace, H: Numbered<N>>(list: &[H], at: usize, number: H::Number) -> bool {
    if at >= list.len() {
        return true;
    }
    !begins_up_to::<N, H>(list[at], number)
}

// Returns whether the struct before index `at` begins at or before the number, or there is none.
#[inline(always)]
fn last_is_up_to<N: AddressSpace, H: Numbered<N>>(list: &[H], at: usize, number: H::Number) -> bool {
    let last = at.wrapping_sub(1);
    if last >= list.len() {
        return true;
    }
    begins_up_to::<N, H>(list[last], number)
}

// Returns `start`, or the end of the list if that comes first; but 0 if the struct before it begins
// after the number.
fn from_start<N: AddressSpace, H: Numbered<N>>(list: &[H], start: usize, number: H::Number) -> usize {
    let from = start.min(list.len());
    if last_is_up_to::<N, H>(list, from, number) {
        return from;
    }
    0
}

// Returns the end of the search that begins at `from`: the start of the next part if the struct
// there begins after the number, else the end of the list.
fn end_of<N: AddressSpace, H: Numbered<N>>(
    list: &[H],
    index: &[u32],
    part: usize,
    from: usize,
    number: H::Number,
) -> usize {
    let count = list.len();
    let end = part_end(index, part, count);
    if end < from || end >= count || begins_up_to::<N, H>(list[end], number) {
        return count;
    }
    end
}
