// Written by scripts/plain out of crates/ipnetwork_sets/src/union.rt

//! The union of two sets.

use crate::ipnetwork_sets::held::split_held;
use crate::ipnetwork_sets::order::{ends_at, goes_on};
use crate::ipnetwork_blocks::{AddressSpace, HoldsNetwork, RangeBlocks, range_to_blocks};

/// An iterator over the blocks of the union of two sets, in ascending order. `H` is the type of the
/// elements of the sets' lists: networks, or values that hold them.
///
/// ```
/// # use fosibegan_core::in_examples::*;
/// # use fosibegan_core::plain_std::vec;
/// # ended(|| {
/// let set = AddressSet::from_networks(vec![in Global; "192.0.2.0/25".parse::<Ipv4Network>()?]?);
/// let other = AddressSet::from_networks(vec![in Global; "192.0.3.0/24".parse()?]?);
/// let blocks: Union<'_, Ipv4Network> = set.union_blocks(&other);
/// assert!(blocks.eq(["192.0.2.0/25".parse()?, "192.0.3.0/24".parse()?]));
/// # Ok(())
/// # });
/// ```
#[derive(Clone)]
pub struct Union<'a, N: AddressSpace, H: HoldsNetwork<N> = N> {
    run: Option<RangeBlocks<N>>,
    first: &'a [H],
    second: &'a [H],
}

impl<'a, N: AddressSpace, H: HoldsNetwork<N>> core::fmt::Debug for Union<'a, N, H>
where
    N: core::fmt::Debug,
    N::Addr: core::fmt::Debug,
    H: core::fmt::Debug,
{
    fn fmt(&self, f: &mut core::fmt::Formatter<'_>) -> core::fmt::Result {
        f.debug_struct("Union")
            .field("run", &self.run)
            .field("first", &self.first)
            .field("second", &self.second)
            .finish()
    }
}

impl<'a, N: AddressSpace, H: HoldsNetwork<N>> Union<'a, N, H> {
    /// The blocks of the addresses that are in the set of one of the lists or of both.
    /// `is_address_set` must hold for both lists.
    ///
    /// ```
    /// # use fosibegan_core::in_examples::*;
    /// # ended(|| {
    /// let list: [Ipv4Network; 1] = ["192.0.2.0/25".parse()?];
    /// let others: [Ipv4Network; 1] = ["192.0.2.128/25".parse()?];
    /// let both = Union::<'_, Ipv4Network, Ipv4Network>::of(&list, &others);
    /// assert!(both.eq(["192.0.2.0/24".parse()?]));
    /// # Ok(())
    /// # });
    /// ```
    ///
    /// # Panics
    ///
    /// Panics if a list is not an address set.
    pub fn of(first: &'a [H], second: &'a [H]) -> Self {
        assert!(
            H::CHECKED || [first, second].into_iter().all(super::check::is_address_set::<N, H>),
            "Union::of: a list is not an address set"
        );
        Self::of_sets(first, second)
    }

    /// `of`, without the check.
    pub(crate) fn of_sets(first: &'a [H], second: &'a [H]) -> Self {
        Union {
            run: None,
            first,
            second,
        }
    }

    // The blocks still to come are those of a set.
    pub(crate) fn law_are_sets(&self) {
        let _ = &self.run;
    }
}

impl<'a, N: AddressSpace, H: HoldsNetwork<N>> Iterator for Union<'a, N, H> {
    type Item = N;

    fn next(&mut self) -> Option<N> {
        if let Some(block) = next_at_hand(&mut self.run) {
            return Some(block);
        }
        let Some(found) = next_run::<N, H>(self.first, self.second) else {
            return None;
        };
        self.first = found.2;
        self.second = found.3;
        if ends_at(found.0, found.1) {
            self.run = None;
            return Some(found.0);
        }
        self.run = range_to_blocks(found.0.network(), found.1);
        next_at_hand(&mut self.run)
    }
}

// The next block of the current run, if there is one.
fn next_at_hand<N: AddressSpace>(run: &mut Option<RangeBlocks<N>>) -> Option<N> {
    match run {
        Some(blocks) => blocks.next(),
        None => None,
    }
}

// The first run of the union, up to the first gap: the block that it begins with, its last address,
// and what is left of both sets after it.
#[inline(always)]
fn next_run<'a, N: AddressSpace, H: HoldsNetwork<N>>(
    first: &'a [H],
    second: &'a [H],
) -> Option<(N, N::Addr, &'a [H], &'a [H])> {
    let Some(taken) = take_first::<N, H>(first, second) else {
        return None;
    };
    let start = taken.0;
    let mut last = start.broadcast();
    let mut first_left = taken.1;
    let mut second_left = taken.2;
    loop {
        if let Some(next) = take_next::<N, H>(last, first_left) {
            last = later::<N>(last, next.0.broadcast());
            first_left = next.1;
        } else if let Some(next) = take_next::<N, H>(last, second_left) {
            last = later::<N>(last, next.0.broadcast());
            second_left = next.1;
        } else {
            return Some((start, last, first_left, second_left));
        }
    }
}

// The first of the blocks and the others, if there is no gap between the address `last` and that
// block.
#[inline(always)]
fn take_next<'a, N: AddressSpace, H: HoldsNetwork<N>>(
    last: N::Addr,
    blocks: &'a [H],
) -> Option<(N, &'a [H])> {
    let Some((block, after)) = split_held::<N, H>(blocks) else {
        return None;
    };
    if goes_on(last, block) {
        Some((block, after))
    } else {
        None
    }
}

// Of the first blocks of both sets, the one that begins first, and the two lists without it.
fn take_first<'a, N: AddressSpace, H: HoldsNetwork<N>>(
    first: &'a [H],
    second: &'a [H],
) -> Option<(N, &'a [H], &'a [H])> {
    let Some(one) = split_held::<N, H>(first) else {
        let other = split_held::<N, H>(second)?;
        return Some((other.0, first, other.1));
    };
    let Some(other) = split_held::<N, H>(second) else {
        return Some((one.0, one.1, second));
    };
    if one.0.ip() <= other.0.ip() {
        Some((one.0, one.1, second))
    } else {
        Some((other.0, first, other.1))
    }
}

// The later of two addresses.
fn later<N: AddressSpace>(first: N::Addr, second: N::Addr) -> N::Addr {
    if first < second { second } else { first }
}
