// Written by scripts/plain out of crates/ipnetwork_index/src/ranges.rt

//! The ranges in which an index finds the longest block.

use crate::ipnetwork_index::answers::{Answers, answers_of};
use crate::ipnetwork_index::edges::ranges_of;
use crate::ipnetwork_index::indexed_network::IndexedNetwork;
use crate::ipnetwork_index::places::Places;
use crate::plain_std::alloc::{AllocError, Global};

/// The ranges that a table's blocks cut the addresses into, with what a look-up finds in each.
#[derive(Clone)]
pub(crate) struct Ranges<N: IndexedNetwork, V: Copy> {
    // The addresses, cut where a block begins or ends.
    pub(crate) places: Places<N>,
    // The longest block that holds the addresses of each range.
    pub(crate) answers: Answers<V>,
}

impl<N: IndexedNetwork, V: Copy> Ranges<N, V> {
    /// The ranges of a table with these entries.
    pub(crate) fn of(alloc: Global, entries: &[(N, V)]) -> Result<Self, AllocError> {
        let lasts = ranges_of(alloc, entries)?;
        let answers = answers_of(alloc, entries, lasts.as_slice())?;
        let places = Places::new(alloc, lasts.as_slice())?;
        Ok(Ranges { places, answers })
    }

    /// The number of ranges.
    pub(crate) fn len(&self) -> usize {
        self.places.len()
    }

    /// The longest block that holds the address, with its value.
    #[inline(always)]
    pub(crate) fn lookup(&self, addr: N::Addr) -> Option<(N, V)> {
        let place = self.places.place_of(addr);
        self.answers.of(place, addr)
    }
}
