// Written by scripts/plain out of crates/ipnetwork_index/src/places.rt

//! The places of a table's ranges in an index of routes.

use crate::plain_std::vec::Vec;
use crate::ipnetwork_index::indexed_network::IndexedNetwork;
use crate::ipnetwork_index::low_halves::LowHalves;
use crate::ipnetwork_index::partition::Partition;
use crate::ipnetwork_index::starts::{low_shift, route_bits};
use crate::plain_std::alloc::{AllocError, Global};

/// The ranges, as a partition or, if there are many that are spread out, by the low halves of their
/// last numbers, which take half the memory and one read of eight numbers.
#[derive(Clone)]
pub(crate) struct Places<N: IndexedNetwork> {
    // The addresses cut into ranges, unless low halves represent these.
    pub(crate) partition: Option<Partition<N>>,
    pub(crate) halves: LowHalves,
}

impl<N: IndexedNetwork> Places<N> {
    /// The ranges with these last addresses.
    pub(crate) fn new(alloc: Global, lasts: &[N::Addr]) -> Result<Self, AllocError> {
        let shift = low_shift(lasts.len());
        let are_many = are_many_and_spread::<N>(lasts);
        if are_many {
            let words = words_of::<N>(alloc, lasts)?;
            let halves = LowHalves::of(alloc, words.as_slice(), shift)?;
            return Ok(Places {
                partition: None,
                halves,
            });
        }
        let partition = Partition::new(alloc, lasts, route_bits(lasts.len()))?;
        Ok(Places {
            partition: Some(partition),
            halves: LowHalves::none(alloc),
        })
    }

    /// The number of ranges.
    pub(crate) fn len(&self) -> usize {
        match &self.partition {
            Some(partition) => partition.len(),
            None => self.halves.len(),
        }
    }

    /// The place of the range that the address lies in.
    #[inline(always)]
    pub(crate) fn place_of(&self, addr: N::Addr) -> usize {
        match &self.partition {
            Some(partition) => partition.place_of(N::number_of(addr)),
            None => self.halves.place_of(N::low_word(N::number_of(addr))),
        }
    }
}

// Whether there are enough ranges for low halves to be worth it, and the ranges without a 64th of
// them at either end extend over a fourth of all numbers: otherwise most of them could lie in one
// part. Only numbers of at most 32 bits have low halves.
fn are_many_and_spread<N: IndexedNetwork>(lasts: &[N::Addr]) -> bool {
    if N::WIDTH > 32 {
        return false;
    }
    if lasts.len() < 1 << 16 || lasts.len() > u32::MAX as usize {
        return false;
    }
    let few = lasts.len() / 64;
    let first = N::low_word(N::number_of(lasts[few]));
    let last = N::low_word(N::number_of(lasts[lasts.len() - 1 - few]));
    last.saturating_sub(first) >= 1 << 30
}

// The numbers of the addresses, which have at most 32 bits.
fn words_of<N: IndexedNetwork>(alloc: Global, addresses: &[N::Addr]) -> Result<Vec<u32>, AllocError> {
    let mut words = Vec::with_capacity(alloc, addresses.len())?;
    for address in addresses {
        words.push(N::low_word(N::number_of(*address)))?;
    }
    Ok(words)
}
