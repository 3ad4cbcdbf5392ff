// Written by scripts/plain out of crates/ipnetwork_index/src/route_index.rt

//! The index of a table.

use crate::ipnetwork_index::answers::entries_of;
use crate::ipnetwork_index::entries::table_of;
use crate::ipnetwork_index::indexed_network::IndexedNetwork;
use crate::ipnetwork_index::ranges::Ranges;
use crate::ipnetwork_table::PrefixTable;
use crate::plain_std::alloc::{AllocError, Global};

/// A table that is searched for the longest block of addresses and does not change: the index takes
/// it over, and `into_table` returns it. The results are copied, so a look-up does not read the
/// table.
///
/// ```
/// # use fosibegan_core::in_examples::*;
/// # ended(|| {
/// let mut table = PrefixTable::new(Global);
/// table.insert("10.0.0.0/8".parse::<Ipv4Network>()?, 2)?;
/// table.insert("10.1.0.0/16".parse()?, 3)?;
/// let index = RouteIndex::from_table(Global, table)?;
/// assert_eq!(index.lookup(Ipv4Addr::new(10, 1, 9, 32)), Some(("10.1.0.0/16".parse()?, 3)));
/// # Ok(())
/// # });
/// ```
#[derive(Clone)]
pub struct RouteIndex<N: IndexedNetwork, V: Copy> {
    table: PrefixTable<N, V>,
    ranges: Ranges<N, V>,
}

impl<N: IndexedNetwork, V: Copy> RouteIndex<N, V> {
    /// The index of a table. Sorts the places where its blocks begin and end, and goes over the
    /// blocks and the ranges between them in order. At most one block of each prefix length is open
    /// at once, so the open blocks need no allocation. If memory runs out, the result is
    /// `AllocError` and the table is dropped.
    ///
    /// ```
    /// # use fosibegan_core::in_examples::*;
    /// # ended(|| {
    /// let mut table = PrefixTable::new(Global);
    /// table.insert("2001:db8::/32".parse::<Ipv6Network>()?, 2)?;
    /// let index = RouteIndex::from_table(Global, table)?;
    /// assert_eq!(index.lookup("2001:db9::".parse()?), None);
    /// # Ok(())
    /// # });
    /// ```
    pub fn from_table(alloc: Global, table: PrefixTable<N, V>) -> Result<Self, AllocError> {
        let entries = entries_of(alloc, &table)?;
        let ranges = Ranges::of(alloc, entries.as_slice())?;
        Ok(RouteIndex { table, ranges })
    }

    /// The index of networks with values, which may have host bits and be in any order: that of a
    /// table of their blocks. Of several with the same block, the last one counts. `AllocError`
    /// when out of memory.
    ///
    /// ```
    /// # use fosibegan_core::in_examples::*;
    /// # ended(|| {
    /// let entries = [("10.0.0.0/8".parse::<Ipv4Network>()?, 2), ("10.1.9.32/16".parse()?, 3)];
    /// let index = RouteIndex::from_entries(Global, &entries)?;
    /// assert_eq!(index.lookup(Ipv4Addr::new(10, 1, 2, 3)), Some(("10.1.0.0/16".parse()?, 3)));
    /// # Ok(())
    /// # });
    /// ```
    pub fn from_entries(alloc: Global, entries: &[(N, V)]) -> Result<Self, AllocError> {
        let table = table_of(alloc, entries)?;
        let index = RouteIndex::from_table(alloc, table)?;
        Ok(index)
    }

    /// The stored block with the greatest prefix length that holds the address, and its value;
    /// `None` if no stored block holds the address. Takes a few reads if the blocks are spread out,
    /// and otherwise about as many as a binary search.
    ///
    /// ```
    /// # use fosibegan_core::in_examples::*;
    /// # ended(|| {
    /// let mut table = PrefixTable::new(Global);
    /// table.insert("10.0.0.0/8".parse::<Ipv4Network>()?, 2)?;
    /// let index = RouteIndex::from_table(Global, table)?;
    /// assert_eq!(index.lookup(Ipv4Addr::new(10, 1, 9, 32)), Some(("10.0.0.0/8".parse()?, 2)));
    /// assert_eq!(index.lookup(Ipv4Addr::new(11, 0, 0, 0)), None);
    /// # Ok(())
    /// # });
    /// ```
    pub fn lookup(&self, addr: N::Addr) -> Option<(N, V)> {
        self.ranges.lookup(addr)
    }

    /// Writes what a look-up of each address finds to the same place in `answers`. There must be as
    /// many answers as addresses.
    ///
    /// ```
    /// # use fosibegan_core::in_examples::*;
    /// # ended(|| {
    /// let mut table = PrefixTable::new(Global);
    /// table.insert("10.0.0.0/8".parse::<Ipv4Network>()?, 2)?;
    /// let index = RouteIndex::from_table(Global, table)?;
    /// let mut answers = [None, None];
    /// let addrs = [Ipv4Addr::new(10, 1, 9, 32), Ipv4Addr::new(11, 0, 0, 0)];
    /// index.lookup_each(&addrs, &mut answers);
    /// assert_eq!(answers, [Some(("10.0.0.0/8".parse()?, 2)), None]);
    /// # Ok(())
    /// # });
    /// ```
    ///
    /// # Panics
    ///
    /// Panics if there are not as many answers as addresses.
    pub fn lookup_each(&self, addrs: &[N::Addr], answers: &mut [Option<(N, V)>]) {
        assert!(
            answers.len() == addrs.len(),
            "lookup_each: there are not as many answers as addresses"
        );
        for place in 0..addrs.len() {
            answers[place] = self.lookup(addrs[place]);
        }
    }

    /// The table, for what an index cannot be asked.
    ///
    /// ```
    /// # use fosibegan_core::in_examples::*;
    /// # ended(|| {
    /// let mut table = PrefixTable::new(Global);
    /// table.insert("10.0.0.0/8".parse::<Ipv4Network>()?, 2)?;
    /// let index = RouteIndex::from_table(Global, table)?;
    /// assert_eq!(index.table().len(), 1);
    /// # Ok(())
    /// # });
    /// ```
    pub fn table(&self) -> &PrefixTable<N, V> {
        &self.table
    }

    /// Returns the table, so that it can be changed. The rest of the index is dropped.
    ///
    /// ```
    /// # use fosibegan_core::in_examples::*;
    /// # ended(|| {
    /// let table = PrefixTable::<Ipv4Network, u8>::new(Global);
    /// let index = RouteIndex::from_table(Global, table)?;
    /// assert!(index.into_table().is_empty());
    /// # Ok(())
    /// # });
    /// ```
    pub fn into_table(self) -> PrefixTable<N, V> {
        self.table
    }

    /// The number of ranges that the table's blocks cut the addresses into: a look-up finds the
    /// same for all addresses of a range. There are at most one more than twice as many ranges as
    /// blocks. In addition to the last numbers of the ranges, as in an `AddressIndex`, the index
    /// has the table, and a byte and a value for each range. It has two to four places of 4 bytes
    /// for each range, or at most one from 2^16 ranges on, but no more than 2^20. From 2^16 IPv4
    /// ranges on, if all but a 32nd of them extend over a fourth of the addresses, it has 2 bytes
    /// instead of 4 for each range, and one place for one or more ranges, on average for fewer than
    /// eight unless there are 2^23 or more, but no more than 2^20 + 1 places. From 2^19 such ranges
    /// on, it also has 2^19 words of 8 bytes.
    ///
    /// ```
    /// # use fosibegan_core::in_examples::*;
    /// # ended(|| {
    /// let mut table = PrefixTable::new(Global);
    /// table.insert("10.0.0.0/8".parse::<Ipv4Network>()?, 2)?;
    /// assert_eq!(RouteIndex::from_table(Global, table)?.range_count(), 3);
    /// # Ok(())
    /// # });
    /// ```
    pub fn range_count(&self) -> usize {
        self.ranges.len()
    }
}
