// Written by scripts/plain out of crates/reducing/src/span.rt

//! What the parts of a list before and after a part need to know of it.

use crate::reducing::joining::others;
use fosibegan_core::ipnetwork_blocks::AddressSpace;

/// The ends of a list of blocks, and the least number of others at two neighbours in it. That is
/// `NO_PAIR` for one block.
#[derive(Clone, Copy)]
pub(crate) struct Span<N> {
    pub(crate) first: N,
    pub(crate) last: N,
    pub(crate) least: u128,
}

/// More than any number of others.
pub(crate) const NO_PAIR: u128 = u128::MAX;

/// The least number of others in the list of this span: `NO_PAIR` for fewer than two blocks.
pub(crate) fn least<N: AddressSpace>(span: Option<Span<N>>) -> u128 {
    match span {
        Some(span) => span.least,
        None => NO_PAIR,
    }
}

/// The span of a list of this block, or of none.
pub(crate) fn alone<N: AddressSpace>(block: Option<N>) -> Option<Span<N>> {
    match block {
        Some(block) => Some(Span {
            first: block,
            last: block,
            least: NO_PAIR,
        }),
        None => None,
    }
}

/// The number of others of the pair where one list follows the other: `NO_PAIR` if one of them is
/// empty.
pub(crate) fn between<N: AddressSpace>(front: Option<Span<N>>, back: Option<Span<N>>) -> u128 {
    match front {
        Some(front) => match back {
            Some(back) => others(front.last, back.first),
            None => NO_PAIR,
        },
        None => NO_PAIR,
    }
}

/// The span of two lists, one after the other.
pub(crate) fn followed<N: AddressSpace>(
    front: Option<Span<N>>,
    back: Option<Span<N>>,
) -> Option<Span<N>> {
    match front {
        Some(front) => match back {
            Some(back) => Some(Span {
                first: front.first,
                last: back.last,
                least: others(front.last, back.first)
                    .min(front.least)
                    .min(back.least),
            }),
            None => Some(front),
        },
        None => back,
    }
}
