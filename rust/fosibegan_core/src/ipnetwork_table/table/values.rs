// Written by scripts/plain out of crates/ipnetwork_table/src/table/values.rt

//! The ordered map that holds the values of a table, and the searches that are made in it.

use crate::ipnetwork_table::entries::Entries;
use crate::ipnetwork_family::CidrNetwork;
use crate::plain_std::alloc::{AllocError, Global};
use crate::plain_std::collections::BTreeMap;

/// How many searches were made in a map. Only a table begins such a count and sees its number, only
/// `Values` adds to it, and it can be neither copied nor dropped.
pub(crate) struct Searches {
    number: u32,
}

impl Searches {
    /// No search yet.
    pub(super) fn none() -> Searches {
        Searches { number: 0 }
    }

    /// Ends the count.
    pub(super) fn end(self) -> u32 {
        let Searches { number } = self;
        number
    }
}

/// Values by network. Each search for a key that changes nothing adds one to the count that it is
/// given.
#[derive(Clone)]
pub(crate) struct Values<N: CidrNetwork, V: Copy> {
    tree: BTreeMap<N, V>,
}

impl<N: CidrNetwork, V: Copy> Values<N, V> {
    pub(crate) fn new(alloc: Global) -> Self {
        Values {
            tree: BTreeMap::new(alloc),
        }
    }

    pub(crate) fn len(&self) -> usize {
        self.tree.len()
    }

    /// The value of one network, if any: one search.
    pub(crate) fn probe(&self, searches: &mut Searches, key: N) -> Option<V> {
        searches.number += 1;
        self.tree.get(&key).copied()
    }

    /// The last network that does not come after `end`, and its value: one search.
    pub(crate) fn last_up_to(&self, searches: &mut Searches, end: N) -> Option<(N, V)> {
        searches.number += 1;
        let (last, value) = self.tree.range(..=end).next_back()?;
        Some((*last, *value))
    }

    /// Sets the value of a network and returns its previous value. The only error is out of memory,
    /// which is possible only for a new network.
    pub(crate) fn insert(&mut self, key: N, value: V) -> Result<Option<V>, AllocError> {
        Ok(self.tree.insert(key, value)?)
    }

    /// Removes all networks and frees the memory.
    pub(crate) fn clear(&mut self) {
        self.tree.clear();
    }

    /// All networks and their values, in order. This is not a search for a key, so it counts
    /// nothing.
    pub(crate) fn entries(&self) -> Entries<'_, N, V> {
        Entries::new(self.tree.iter())
    }

    /// Removes a network and returns its value, if any.
    pub(crate) fn remove(&mut self, key: N) -> Option<V> {
        self.tree.remove(&key)
    }
}
