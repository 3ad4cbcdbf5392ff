// Written by scripts/plain out of crates/ipnetwork_sets/src/held.rt

//! Lists of values that hold networks.

use crate::ipnetwork_blocks::{AddressSpace, HoldsNetwork};

/// The network that the first value holds, and the other values; `None` if there are no values.
#[inline(always)]
pub(crate) fn split_held<'a, N: AddressSpace, H: HoldsNetwork<N>>(
    list: &'a [H],
) -> Option<(N, &'a [H])> {
    let Some((first, others)) = list.split_first() else {
        return None;
    };
    Some(((*first).held_network(), others))
}

/// The values after the first if `skips` is true, else all of them. Without a branch, since nothing
/// predicts which of two lists is the next to be skipped in.
#[inline(always)]
pub(crate) fn skip_first_if<'a, H>(list: &'a [H], skips: bool) -> &'a [H] {
    &list[usize::from(skips)..]
}
