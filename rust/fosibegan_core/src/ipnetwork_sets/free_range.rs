// Written by scripts/plain out of crates/ipnetwork_sets/src/free_range.rt

//! The ranges of a block that are not in a set.

use crate::ipnetwork_sets::held::split_held;
use crate::ipnetwork_sets::order::is_before;
use crate::ipnetwork_blocks::{AddressSpace, HoldsNetwork};

/// The first and the last address of the first range of the whole, from `from` on, that has no
/// address of the cut set, or `None` if there is none; and what is left of the cut set. The range is
/// as long as possible.
pub(crate) fn first_free_range<'a, N: AddressSpace, H: HoldsNetwork<N>>(
    whole: N,
    from: N::Addr,
    cut: &'a [H],
) -> (Option<(N::Addr, N::Addr)>, &'a [H]) {
    let last = whole.broadcast();
    let mut at = from;
    let mut left = cut;
    loop {
        let Some(taken) = split_held::<N, H>(left) else {
            return (Some((at, last)), left);
        };
        let begin = taken.0.ip();
        let end = taken.0.broadcast();
        if is_before::<N>(end, at) {
            left = taken.1;
        } else if is_before::<N>(last, begin) {
            return (Some((at, last)), left);
        } else if is_before::<N>(at, begin) {
            let Some(before) = N::previous_address(begin) else {
                unreachable!()
            };
            return (Some((at, before)), left);
        } else if is_before::<N>(end, last) {
            let Some(next) = N::next_address(end) else {
                unreachable!()
            };
            at = next;
            left = taken.1;
        } else {
            return (None, left);
        }
    }
}
