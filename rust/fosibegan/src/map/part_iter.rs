//! Iterators over the entries of one family.

use super::lengths::Lengths;
use super::part::Table;
use alloc::collections::btree_map;
use core::ops::Range;
use fosibegan_core::IndexedNetwork;

/// All entries, in order.
pub(super) struct PartIter<'a, C, V> {
    order: btree_map::Iter<'a, C, u32>,
    values: &'a [V],
}

impl<'a, C, V> PartIter<'a, C, V> {
    pub(super) fn new(order: btree_map::Iter<'a, C, u32>, values: &'a [V]) -> Self {
        PartIter { order, values }
    }
}

/// Those of a range of blocks.
pub(super) struct PartRange<'a, C, V> {
    order: btree_map::Range<'a, C, u32>,
    values: &'a [V],
}

impl<'a, C, V> PartRange<'a, C, V> {
    pub(super) fn new(order: btree_map::Range<'a, C, u32>, values: &'a [V]) -> Self {
        PartRange { order, values }
    }

    pub(super) fn none() -> Self {
        PartRange {
            order: btree_map::Range::default(),
            values: &[],
        }
    }
}

macro_rules! in_order {
    ($name:ident) => {
        impl<C, V> Clone for $name<'_, C, V> {
            fn clone(&self) -> Self {
                $name {
                    order: self.order.clone(),
                    values: self.values,
                }
            }
        }

        impl<'a, C: Copy, V> Iterator for $name<'a, C, V> {
            type Item = (C, &'a V);

            #[inline]
            fn next(&mut self) -> Option<(C, &'a V)> {
                let (block, place) = self.order.next()?;
                Some((*block, &self.values[*place as usize]))
            }

            fn size_hint(&self) -> (usize, Option<usize>) {
                self.order.size_hint()
            }
        }

        impl<C: Copy, V> DoubleEndedIterator for $name<'_, C, V> {
            #[inline]
            fn next_back(&mut self) -> Option<Self::Item> {
                let (block, place) = self.order.next_back()?;
                Some((*block, &self.values[*place as usize]))
            }
        }
    };
}

in_order!(PartIter);
in_order!(PartRange);

impl<C: Copy, V> ExactSizeIterator for PartIter<'_, C, V> {}

/// The blocks that have a network, found by asking the table for one of each prefix length that
/// some block has.
pub(super) struct PartCovering<'a, C: IndexedNetwork, V> {
    found_by: Option<(&'a Table<C>, &'a Lengths)>,
    values: &'a [V],
    addr: C::Addr,
    prefixes: Range<u8>,
}

impl<'a, C: IndexedNetwork, V> PartCovering<'a, C, V> {
    pub(super) fn new(
        table: &'a Table<C>,
        lengths: &'a Lengths,
        values: &'a [V],
        network: C,
    ) -> Self {
        PartCovering {
            found_by: Some((table, lengths)),
            values,
            addr: network.ip(),
            prefixes: 0..network.prefix() + 1,
        }
    }

    pub(super) fn none() -> Self {
        PartCovering {
            found_by: None,
            values: &[],
            addr: C::whole().ip(),
            prefixes: 0..0,
        }
    }

    /// The block of this prefix length that has the network.
    fn of_length(&self, prefix: u8) -> Option<(C, &'a V)> {
        let (table, lengths) = self.found_by?;
        if !lengths.has(prefix) {
            return None;
        }
        let block = C::block_at(self.addr, prefix);
        let place = table.get(block)?;
        Some((block, &self.values[place as usize]))
    }
}

impl<C: IndexedNetwork, V> Clone for PartCovering<'_, C, V> {
    fn clone(&self) -> Self {
        PartCovering {
            prefixes: self.prefixes.clone(),
            ..*self
        }
    }
}

impl<'a, C: IndexedNetwork, V> Iterator for PartCovering<'a, C, V> {
    type Item = (C, &'a V);

    fn next(&mut self) -> Option<(C, &'a V)> {
        while let Some(prefix) = self.prefixes.next() {
            if let Some(entry) = self.of_length(prefix) {
                return Some(entry);
            }
        }
        None
    }

    fn size_hint(&self) -> (usize, Option<usize>) {
        (0, Some(self.prefixes.len()))
    }
}

impl<C: IndexedNetwork, V> DoubleEndedIterator for PartCovering<'_, C, V> {
    fn next_back(&mut self) -> Option<Self::Item> {
        while let Some(prefix) = self.prefixes.next_back() {
            if let Some(entry) = self.of_length(prefix) {
                return Some(entry);
            }
        }
        None
    }
}
