// Written by scripts/plain out of crates/ipnetwork_sets/src/common.rt

//! The intersection of two sets.

use crate::ipnetwork_sets::held::{skip_first_if, split_held};
use crate::ipnetwork_sets::order::{is_before, share_address};
use crate::ipnetwork_blocks::{AddressSpace, HoldsNetwork};
use core::marker::PhantomData;

/// An iterator over the blocks of the intersection of two sets, in ascending order. `H` is the type
/// of the elements of the sets' lists: networks, or values that hold them.
///
/// ```
/// # use fosibegan_core::in_examples::*;
/// # use fosibegan_core::plain_std::vec;
/// # ended(|| {
/// let set = AddressSet::from_networks(vec![in Global; "192.0.2.0/25".parse::<Ipv4Network>()?]?);
/// let other = AddressSet::from_networks(vec![in Global; "192.0.0.0/16".parse()?]?);
/// let common: Intersection<'_, Ipv4Network> = set.intersection(&other);
/// assert!(common.eq(["192.0.2.0/25".parse()?]));
/// # Ok(())
/// # });
/// ```
#[derive(Clone, Debug)]
pub struct Intersection<'a, N: AddressSpace, H: HoldsNetwork<N> = N> {
    first: &'a [H],
    second: &'a [H],
    family: PhantomData<N>,
}

impl<'a, N: AddressSpace, H: HoldsNetwork<N>> Intersection<'a, N, H> {
    /// The blocks of the addresses that are in the sets of both lists. `is_address_set` must hold
    /// for both lists.
    ///
    /// ```
    /// # use fosibegan_core::in_examples::*;
    /// # ended(|| {
    /// let list: [Ipv4Network; 1] = ["192.0.2.0/25".parse()?];
    /// let others: [Ipv4Network; 1] = ["192.0.2.64/26".parse()?];
    /// let common = Intersection::<'_, Ipv4Network, Ipv4Network>::of(&list, &others);
    /// assert!(common.eq(others));
    /// # Ok(())
    /// # });
    /// ```
    ///
    /// # Panics
    ///
    /// Panics if a list is not an address set.
    pub fn of(first: &'a [H], second: &'a [H]) -> Self {
        assert!(
            H::CHECKED || [first, second].into_iter().all(super::check::is_address_set::<N, H>),
            "Intersection::of: a list is not an address set"
        );
        Self::of_sets(first, second)
    }

    /// `of`, without the check.
    pub(crate) fn of_sets(first: &'a [H], second: &'a [H]) -> Self {
        Intersection {
            first,
            second,
            family: PhantomData,
        }
    }

    // The blocks still to come are those of a set.
    pub(crate) fn law_are_sets(&self) {
        let _ = &self.first;
    }
}

impl<'a, N: AddressSpace, H: HoldsNetwork<N>> Iterator for Intersection<'a, N, H> {
    type Item = N;

    fn next(&mut self) -> Option<N> {
        let (block, first, second) = next_common::<N, H>(self.first, self.second)?;
        self.first = first;
        self.second = second;
        Some(block)
    }
}

// The first block of the intersection, and what is left of both sets. Skips a block that ends
// before the other set's first block begins; of two blocks that share an address, the smaller lies
// in the other. With a branch for each block that is skipped this takes 1.5 times as long in IPv4,
// and 1.7 in IPv6.
fn next_common<'a, N: AddressSpace, H: HoldsNetwork<N>>(
    mut first: &'a [H],
    mut second: &'a [H],
) -> Option<(N, &'a [H], &'a [H])> {
    loop {
        let Some(one) = split_held::<N, H>(first) else {
            return None;
        };
        let Some(other) = split_held::<N, H>(second) else {
            return None;
        };
        let a = one.0;
        let b = other.0;
        if share_address(a, b) {
            let length = a.prefix();
            let other_length = b.prefix();
            if other_length <= length {
                return Some((a, one.1, second));
            }
            return Some((b, first, other.1));
        }
        let begin = a.ip();
        let other_begin = b.ip();
        let before = is_before::<N>(begin, other_begin);
        first = skip_first_if(first, before);
        second = skip_first_if(second, !before);
    }
}
