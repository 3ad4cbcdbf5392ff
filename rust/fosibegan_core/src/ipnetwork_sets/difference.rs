// Written by scripts/plain out of crates/ipnetwork_sets/src/difference.rt

//! The addresses that are in one set and not in another.

use crate::ipnetwork_sets::free_range::first_free_range;
use crate::ipnetwork_sets::held::split_held;
use crate::ipnetwork_sets::order::ends_at;
use crate::ipnetwork_blocks::{AddressSpace, HoldsNetwork, block, widest_block};

/// An iterator over the blocks of a difference of sets, in ascending order. `H` is the type of the
/// elements of the sets' lists: networks, or values that hold them.
///
/// ```
/// # use fosibegan_core::in_examples::*;
/// # use fosibegan_core::plain_std::vec;
/// # ended(|| {
/// let set = AddressSet::from_networks(vec![in Global; "192.0.2.0/25".parse::<Ipv4Network>()?]?);
/// let other = AddressSet::from_networks(vec![in Global; "192.0.2.32/27".parse()?]?);
/// let left: Difference<'_, Ipv4Network> = set.difference(&other);
/// assert!(left.eq(["192.0.2.0/27".parse()?, "192.0.2.64/26".parse()?]));
/// # Ok(())
/// # });
/// ```
#[derive(Clone, Debug)]
pub struct Difference<'a, N: AddressSpace, H: HoldsNetwork<N> = N> {
    at_hand: Option<Part<N>>,
    rest: &'a [H],
    cut: &'a [H],
}

/// A block, and a network whose own address is one of the block; the addresses before it are done.
#[derive(Clone, Copy, Debug)]
struct Part<N: AddressSpace> {
    whole: N,
    next: N,
}

impl<'a, N: AddressSpace, H: HoldsNetwork<N>> Difference<'a, N, H> {
    /// The blocks of the addresses that are in the set of `first` and not in that of `cut`.
    /// `is_address_set` must hold for both lists.
    ///
    /// ```
    /// # use fosibegan_core::in_examples::*;
    /// # ended(|| {
    /// let list: [Ipv4Network; 1] = ["192.0.2.0/25".parse()?];
    /// let others: [Ipv4Network; 1] = ["192.0.2.64/26".parse()?];
    /// let left = Difference::<'_, Ipv4Network, Ipv4Network>::of(&list, &others);
    /// assert!(left.eq(["192.0.2.0/26".parse()?]));
    /// # Ok(())
    /// # });
    /// ```
    ///
    /// # Panics
    ///
    /// Panics if a list is not an address set.
    pub fn of(first: &'a [H], cut: &'a [H]) -> Self {
        assert!(
            H::CHECKED || [first, cut].into_iter().all(super::check::is_address_set::<N, H>),
            "Difference::of: a list is not an address set"
        );
        Self::of_sets(first, cut)
    }

    /// `of`, without the check.
    pub(crate) fn of_sets(first: &'a [H], cut: &'a [H]) -> Self {
        Difference {
            at_hand: None,
            rest: first,
            cut,
        }
    }

    /// The blocks of the addresses that are in the network and not in the cut set.
    pub(crate) fn within(network: N, cut: &'a [H]) -> Self {
        let whole = block(network);
        Difference {
            at_hand: Some(Part { whole, next: whole }),
            rest: &cut[..0],
            cut,
        }
    }

    // The blocks still to come are those of a set.
    pub(crate) fn law_are_sets(&self) {
        let _ = &self.rest;
    }
}

impl<'a, N: AddressSpace, H: HoldsNetwork<N>> Iterator for Difference<'a, N, H> {
    type Item = N;

    fn next(&mut self) -> Option<N> {
        let (block, at_hand, rest, cut) = next_left::<N, H>(self.at_hand, self.rest, self.cut)?;
        self.at_hand = at_hand;
        self.rest = rest;
        self.cut = cut;
        Some(block)
    }
}

// The first block that is left, and the state after it.
fn next_left<'a, N: AddressSpace, H: HoldsNetwork<N>>(
    mut at_hand: Option<Part<N>>,
    mut rest: &'a [H],
    mut cut: &'a [H],
) -> Option<(N, Option<Part<N>>, &'a [H], &'a [H])> {
    loop {
        let Some((part, after)) = take_part::<N, H>(at_hand, rest) else {
            return None;
        };
        rest = after;
        let (free, left) = first_free_range::<N, H>(part.whole, part.next.ip(), cut);
        cut = left;
        if let Some(range) = free {
            let block = widest_block::<N>(range.0, range.1);
            let next = part_behind(part.whole, block);
            return Some((block, next, rest, cut));
        }
        at_hand = None;
    }
}

// The current part or, if there is none, the first of the remaining blocks as a whole; and the
// blocks that remain after it.
fn take_part<'a, N: AddressSpace, H: HoldsNetwork<N>>(
    at_hand: Option<Part<N>>,
    rest: &'a [H],
) -> Option<(Part<N>, &'a [H])> {
    match at_hand {
        Some(part) => Some((part, rest)),
        None => {
            let Some((whole, after)) = split_held::<N, H>(rest) else {
                return None;
            };
            let part = Part { whole, next: whole };
            Some((part, after))
        }
    }
}

// The part of the whole after the block; `None` if the whole ends with it.
fn part_behind<N: AddressSpace>(whole: N, block: N) -> Option<Part<N>> {
    let last = block.broadcast();
    if ends_at(whole, last) {
        return None;
    }
    let Some(next) = N::next_address(last) else {
        unreachable!()
    };
    Some(Part {
        whole,
        next: N::block_at(next, N::WIDTH),
    })
}
