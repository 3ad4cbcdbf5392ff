//! The entries of one family, as both kinds of maps have them.

use super::lengths::Lengths;
use super::part_iter::{PartCovering, PartIter, PartRange};
use crate::convert::or_abort;
use alloc::boxed::Box;
use alloc::collections::BTreeMap;
use alloc::collections::btree_map::Entry;
use alloc::vec::Vec;
use core::mem;
use fosibegan_core::plain_std::alloc::Global;
use fosibegan_core::{IndexedNetwork, PrefixTable, RouteIndex};

/// The table of a map that changes: it finds where the value of a block is.
pub(super) type Table<C> = PrefixTable<C, u32>;

/// The same of a map that does not change.
pub(super) type Index<C> = RouteIndex<C, u32>;

/// What finds the places of values.
pub(super) trait Places<C: IndexedNetwork> {
    /// The prefix length of the longest block that has the address, and where its value is.
    fn longest(&self, addr: C::Addr) -> Option<(u8, u32)>;

    /// The table of all blocks.
    fn table(&self) -> &Table<C>;
}

impl<C: IndexedNetwork> Places<C> for Table<C> {
    #[inline]
    fn longest(&self, addr: C::Addr) -> Option<(u8, u32)> {
        let (block, place) = self.lookup(addr)?;
        Some((block.prefix(), place))
    }

    #[inline]
    fn table(&self) -> &Table<C> {
        self
    }
}

impl<C: IndexedNetwork> Places<C> for Index<C> {
    #[inline]
    fn longest(&self, addr: C::Addr) -> Option<(u8, u32)> {
        let (block, place) = self.lookup(addr)?;
        Some((block.prefix(), place))
    }

    #[inline]
    fn table(&self) -> &Table<C> {
        RouteIndex::table(self)
    }
}

/// The places of values, and how many blocks there are of each prefix length.
#[derive(Clone)]
pub(super) struct Finder<P> {
    pub(super) places: P,
    pub(super) lengths: Lengths,
}

/// The entries of one family: a list of blocks and one of their values, in which an entry keeps its
/// place until another one is removed, and what says where an entry is in them. The values have
/// a list of their own, since a look-up reads nothing else.
#[derive(Clone)]
pub(super) struct Part<C, V, P> {
    /// None before the first entry, since it takes more than 2 KiB.
    finder: Option<Box<Finder<P>>>,
    /// The places in the order of networks.
    order: BTreeMap<C, u32>,
    blocks: Vec<C>,
    values: Vec<V>,
}

/// The network with its host bits cleared.
#[inline]
fn block_of<C: IndexedNetwork>(network: C) -> C {
    C::block_at(network.ip(), network.prefix())
}

/// The place of an entry that is put after so many others.
fn place_after(count: usize) -> u32 {
    let Ok(place) = u32::try_from(count) else {
        panic!("capacity overflow");
    };
    place
}

impl<C, V, P> Part<C, V, P> {
    pub(super) const fn new() -> Self {
        Part {
            finder: None,
            order: BTreeMap::new(),
            blocks: Vec::new(),
            values: Vec::new(),
        }
    }

    #[inline]
    pub(super) fn len(&self) -> usize {
        self.values.len()
    }

    pub(super) fn iter(&self) -> PartIter<'_, C, V> {
        PartIter::new(self.order.iter(), &self.values)
    }

    /// The entries in order, to be changed.
    pub(super) fn sorted_mut(&mut self) -> Vec<(C, &mut V)>
    where
        C: IndexedNetwork,
    {
        let blocks = self.blocks.iter().copied();
        let mut entries: Vec<_> = blocks.zip(&mut self.values).collect();
        entries.sort_unstable_by_key(|entry| entry.0);
        entries
    }

    /// The entries in order.
    pub(super) fn into_sorted(self) -> Vec<(C, V)>
    where
        C: IndexedNetwork,
    {
        let mut entries: Vec<_> = self.blocks.into_iter().zip(self.values).collect();
        entries.sort_unstable_by_key(|entry| entry.0);
        entries
    }

    #[inline]
    pub(super) fn at(&self, place: usize) -> &V {
        &self.values[place]
    }

    #[inline]
    pub(super) fn at_mut(&mut self, place: usize) -> &mut V {
        &mut self.values[place]
    }
}

impl<C: IndexedNetwork, V, P: Places<C>> Part<C, V, P> {
    /// Where the value of a network's block is.
    #[inline]
    pub(super) fn place_of(&self, network: C) -> Option<usize> {
        let place = self.finder.as_ref()?.places.table().get(network)?;
        Some(place as usize)
    }

    /// The prefix length of the longest block that has the address, and where its value is.
    #[inline]
    pub(super) fn longest(&self, addr: C::Addr) -> Option<(u8, usize)> {
        let (prefix, place) = self.finder.as_ref()?.places.longest(addr)?;
        Some((prefix, place as usize))
    }

    /// The blocks that have the network, from the shortest on.
    pub(super) fn covering(&self, network: C) -> PartCovering<'_, C, V> {
        match &self.finder {
            Some(finder) => PartCovering::new(
                finder.places.table(),
                &finder.lengths,
                &self.values,
                network,
            ),
            None => PartCovering::none(),
        }
    }

    /// The blocks in the network. They are next to each other in the order of networks.
    pub(super) fn covered_by(&self, network: C) -> PartRange<'_, C, V> {
        let first = block_of(network);
        let last = C::block_at(network.broadcast(), C::WIDTH);
        PartRange::new(self.order.range(first..=last), &self.values)
    }
}

impl<C: IndexedNetwork, V> Part<C, V, Table<C>> {
    /// Sets the value of a network's block, and returns the one that it had.
    pub(super) fn insert(&mut self, network: C, value: V) -> Option<V> {
        let block = block_of(network);
        match self.order.entry(block) {
            Entry::Occupied(known) => {
                let place = *known.get() as usize;
                Some(mem::replace(&mut self.values[place], value))
            }
            Entry::Vacant(new) => {
                let place = place_after(self.values.len());
                let finder = self.finder.get_or_insert_with(Finder::boxed);
                or_abort(finder.places.insert(block, place));
                finder.lengths.add(block.prefix());
                self.blocks.push(block);
                self.values.push(value);
                new.insert(place);
                None
            }
        }
    }

    /// Removes a network's block.
    pub(super) fn remove(&mut self, network: C) -> Option<(C, V)> {
        let block = block_of(network);
        let finder = self.finder.as_mut()?;
        let place = finder.places.remove(block)?;
        finder.lengths.remove(block.prefix());
        self.order.remove(&block);
        self.blocks.swap_remove(place as usize);
        let value = self.values.swap_remove(place as usize);
        // The entry that was the last is here now, unless it is the one that is removed.
        if let Some(moved) = self.blocks.get(place as usize) {
            or_abort(finder.places.insert(*moved, place));
            self.order.insert(*moved, place);
        }
        Some((block, value))
    }

    /// Asks of each entry, in order, whether it stays.
    pub(super) fn retain(&mut self, mut keep: impl FnMut(C, &mut V) -> bool) {
        let mut refused = Refused {
            part: self,
            blocks: Vec::new(),
        };
        let Refused { part, blocks } = &mut refused;
        for (block, place) in &part.order {
            if !keep(*block, &mut part.values[*place as usize]) {
                blocks.push(*block);
            }
        }
    }

    pub(super) fn freeze(self) -> Part<C, V, Index<C>> {
        let finder = self.finder.filter(|_| !self.values.is_empty());
        Part {
            finder: finder.map(|finder| finder.freeze()),
            order: self.order,
            blocks: self.blocks,
            values: self.values,
        }
    }
}

impl<C: IndexedNetwork, V> Part<C, V, Index<C>> {
    pub(super) fn thaw(self) -> Part<C, V, Table<C>> {
        let finder = self.finder.map(|finder| {
            Box::new(Finder {
                places: finder.places.into_table(),
                lengths: finder.lengths,
            })
        });
        Part {
            finder,
            order: self.order,
            blocks: self.blocks,
            values: self.values,
        }
    }
}

impl<C: IndexedNetwork> Finder<Table<C>> {
    fn boxed() -> Box<Self> {
        Box::new(Finder {
            places: PrefixTable::new(Global),
            lengths: Lengths::none(),
        })
    }

    fn freeze(self) -> Box<Finder<Index<C>>> {
        let places = or_abort(RouteIndex::from_table(Global, self.places));
        Box::new(Finder {
            places,
            lengths: self.lengths,
        })
    }
}

impl<C: IndexedNetwork, V> Part<C, V, Table<C>> {
    /// Makes the part of entries in any order. Of several with one block, the last one counts.
    pub(super) fn of_entries(mut entries: Vec<(C, V)>) -> Self {
        for (network, _) in &mut entries {
            *network = block_of(*network);
        }
        entries.sort_by_key(|entry| entry.0);
        entries.dedup_by(|later, kept| {
            let is_same = later.0 == kept.0;
            if is_same {
                mem::swap(later, kept);
            }
            is_same
        });
        let mut part = Part::new();
        if entries.is_empty() {
            return part;
        }
        place_after(entries.len() - 1);
        let mut finder = Finder::boxed();
        for (place, (block, _)) in (0..).zip(&entries) {
            or_abort(finder.places.insert(*block, place));
            finder.lengths.add(block.prefix());
        }
        part.finder = Some(finder);
        (part.blocks, part.values) = entries.into_iter().unzip();
        part.order = part.blocks.iter().copied().zip(0..).collect();
        part
    }
}

/// The blocks that `retain` has refused so far. They are removed at its end, and also where a call
/// of the closure panics.
struct Refused<'a, C: IndexedNetwork, V> {
    part: &'a mut Part<C, V, Table<C>>,
    blocks: Vec<C>,
}

impl<C: IndexedNetwork, V> Drop for Refused<'_, C, V> {
    fn drop(&mut self) {
        for block in mem::take(&mut self.blocks) {
            drop(self.part.remove(block));
        }
    }
}

#[cfg(test)]
mod tests {
    use super::place_after;

    #[test]
    fn a_place_has_32_bits() {
        assert_eq!(place_after(0), 0);
        assert_eq!(place_after(u32::MAX as usize), u32::MAX);
    }

    #[test]
    #[cfg(target_pointer_width = "64")]
    #[should_panic(expected = "capacity overflow")]
    fn there_is_no_place_past_32_bits() {
        place_after(u32::MAX as usize + 1);
    }
}
