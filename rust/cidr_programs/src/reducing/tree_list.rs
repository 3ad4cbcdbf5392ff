// Written by scripts/plain out of crates/reducing/src/tree_list.rt

//! A list of blocks in which neighbours are joined.

use fosibegan_core::plain_std::vec::Vec;
use crate::reducing::span::least;
use crate::reducing::tree::{Node, build, join, span};
use fosibegan_core::ipnetwork_blocks::AddressSpace;
use fosibegan_core::plain_std::alloc::{AllocError, Global};

/// A list of blocks, in a tree.
pub(crate) struct TreeList<N: AddressSpace> {
    tree: Vec<Node<N>>,
    count: usize,
}

impl<N: AddressSpace> TreeList<N> {
    /// The list of these blocks.
    pub(crate) fn new(alloc: Global, list: &[N]) -> Result<Self, AllocError> {
        let mut tree = Vec::with_capacity(alloc, list.len())?;
        for block in list {
            tree.push(Node {
                block: Some(*block),
                span: None,
            })?;
        }
        build(tree.as_mut_slice());
        Ok(TreeList {
            tree,
            count: list.len(),
        })
    }

    /// The number of blocks.
    pub(crate) fn len(&self) -> usize {
        self.count
    }

    /// The least number of others at two neighbours.
    pub(crate) fn least(&self) -> u128 {
        least(span(self.tree.as_slice()))
    }

    /// Joins the first two neighbours that have this number of others, the least.
    pub(crate) fn join_least(&mut self, others: u128) {
        join(self.tree.as_mut_slice(), others);
        self.count -= 1;
    }

    /// The blocks, in the memory of another list.
    pub(crate) fn into_blocks(self, memory: Vec<N>) -> Result<Vec<N>, AllocError> {
        let mut list = memory;
        list.clear();
        for node in &self.tree {
            push_block(&mut list, node.block)?;
        }
        Ok(list)
    }
}

// Appends the block, if there is one.
fn push_block<N: AddressSpace>(list: &mut Vec<N>, block: Option<N>) -> Result<(), AllocError> {
    let Some(block) = block else {
        return Ok(());
    };
    list.push(block)?;
    Ok(())
}
