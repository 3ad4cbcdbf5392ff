// Written by scripts/plain out of crates/ipnetwork_index/src/simd_step.rt

//! Four numbers compared at once.

use crate::ipnetwork_index::key::Key;

// How many of the next four steps from `at` on, each over `step` + 1 keys, end with a key that is
// less than `key`. No branch depends on the keys. The last one is read first: the others then need
// no check of bounds if the step is 0, and are compared by the instructions of a vector.
#[inline(always)]
pub(crate) fn below_of_four<K: Key>(keys: &[K], at: usize, step: usize, key: K) -> usize {
    let fourth = one_if_less::<K>(keys[at + (4 * step + 3)], key);
    let first = one_if_less::<K>(keys[at + step], key);
    let second = one_if_less::<K>(keys[at + (2 * step + 1)], key);
    let third = one_if_less::<K>(keys[at + (3 * step + 2)], key);
    first + second + third + fourth
}

// 1 if the first is less than the second, and 0 otherwise.
#[inline(always)]
fn one_if_less<K: Key>(first: K, second: K) -> usize {
    usize::from(first.is_less(second))
}
