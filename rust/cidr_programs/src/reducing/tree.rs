// Written by scripts/plain out of crates/reducing/src/tree.rt

//! A slice that is a search tree: its root is in the middle, and the slices before and after it are
//! its subtrees.

use crate::reducing::joining::joined;
use crate::reducing::span::{Span, alone, between, followed, least};
use fosibegan_core::ipnetwork_blocks::AddressSpace;

/// A place for a block of a list, and the span of the blocks in the tree of which it is the root.
#[derive(Clone, Copy)]
pub(crate) struct Node<N> {
    pub(crate) block: Option<N>,
    pub(crate) span: Option<Span<N>>,
}

// An end of a list.
#[derive(Clone, Copy)]
enum End {
    First,
    Last,
}

/// The span of the blocks in a tree.
pub(crate) fn span<N: AddressSpace>(tree: &[Node<N>]) -> Option<Span<N>> {
    match tree.get(tree.len() / 2) {
        Some(root) => root.span,
        None => None,
    }
}

// The root of a tree.
fn root<N: AddressSpace>(left: &[Node<N>], block: Option<N>, right: &[Node<N>]) -> Node<N> {
    let span = followed(followed(span(left), alone(block)), span(right));
    Node { block, span }
}

/// Makes a tree of the blocks in these places.
pub(crate) fn build<N: AddressSpace>(tree: &mut [Node<N>]) {
    if tree.is_empty() {
        return;
    }
    let middle = tree.len() / 2;
    let (left, rest) = tree.split_at_mut(middle);
    let (place, right) = rest.split_at_mut(1);
    build(left);
    build(right);
    place[0] = root(left, place[0].block, right);
}

// Takes out the block at this end.
fn take<N: AddressSpace>(tree: &mut [Node<N>], end: End) -> Option<N> {
    if span(tree).is_none() {
        return None;
    }
    let middle = tree.len() / 2;
    let (left, rest) = tree.split_at_mut(middle);
    let (place, right) = rest.split_at_mut(1);
    let block = place[0].block;
    let (taken, block) = match end {
        End::First => take_from(left, block, right, End::First),
        End::Last => take_from(right, block, left, End::Last),
    };
    place[0] = root(left, block, right);
    taken
}

// Takes out the block at this end, where the near tree is, of two trees and the block between them.
// Returns what was taken, and the block that is then between the trees.
fn take_from<N: AddressSpace>(
    near: &mut [Node<N>],
    block: Option<N>,
    far: &mut [Node<N>],
    end: End,
) -> (Option<N>, Option<N>) {
    if let Some(taken) = take(near, end) {
        return (Some(taken), block);
    }
    if let Some(taken) = block {
        return (Some(taken), None);
    }
    (take(far, end), None)
}

// Removes and returns the last block of a list: the blocks of a tree and, if there is one, `block`.
fn take_end<N: AddressSpace>(left: &mut [Node<N>], block: Option<N>) -> Option<N> {
    if let Some(last) = block {
        return Some(last);
    }
    take(left, End::Last)
}

/// Joins the first two neighbours that have this number of others, the least in the tree.
pub(crate) fn join<N: AddressSpace>(tree: &mut [Node<N>], others: u128) {
    if tree.is_empty() {
        return;
    }
    let middle = tree.len() / 2;
    let (left, rest) = tree.split_at_mut(middle);
    let (place, right) = rest.split_at_mut(1);
    let block = join_parts(left, place[0].block, right, others);
    place[0] = root(left, block, right);
}

// Joins the first two neighbours that have this number of others, the least of those in the left
// tree, the block and the right tree. Returns the block that is then between the trees.
fn join_parts<N: AddressSpace>(
    left: &mut [Node<N>],
    block: Option<N>,
    right: &mut [Node<N>],
    others: u128,
) -> Option<N> {
    let front = followed(span(left), alone(block));
    if least(span(left)) == others {
        join(left, others);
        block
    } else if least(front) == others {
        both(take(left, End::Last), block)
    } else if between(front, span(right)) == others {
        let last = take_end(left, block);
        both(last, take(right, End::First))
    } else {
        join(right, others);
        block
    }
}

// The block that two blocks are joined into, if there are two.
fn both<N: AddressSpace>(first: Option<N>, second: Option<N>) -> Option<N> {
    Some(joined(first?, second?))
}
