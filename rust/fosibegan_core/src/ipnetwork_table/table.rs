// Written by scripts/plain out of crates/ipnetwork_table/src/table.rt

//! A table of values by block.

mod values;

use crate::ipnetwork_table::counts::{count_one_less, count_one_more};
use crate::ipnetwork_table::entries::Entries;
use crate::ipnetwork_table::lookups::{longest_holding, longest_in_turn};
use crate::ipnetwork_family::CidrNetwork;
use crate::plain_std::alloc::{AllocError, Global};
use core::fmt;
use core::fmt::{Debug, Formatter, Write};
pub(crate) use values::{Searches, Values};

/// Values by block, and look-ups of the longest block that holds an address (RFC 4632, section
/// 5.1). All networks of a table are of one family.
///
/// A network given as a key represents its block: its host bits are cleared. Only `insert`
/// allocates.
///
/// ```
/// # use fosibegan_core::in_examples::*;
/// # ended(|| {
/// let mut table = PrefixTable::new(Global);
/// table.insert("10.0.0.0/8".parse::<Ipv4Network>()?, 2)?;
/// table.insert("10.1.0.0/16".parse()?, 3)?;
/// assert_eq!(table.lookup(Ipv4Addr::new(10, 1, 9, 32)), Some(("10.1.0.0/16".parse()?, 3)));
/// # Ok(())
/// # });
/// ```
#[derive(Clone)]
pub struct PrefixTable<N: CidrNetwork, V: Copy> {
    values: Values<N, V>,
    // `used[p]` is the number of stored blocks with prefix length p.
    used: [usize; 256],
}

// The block of a network.
fn key_of<N: CidrNetwork>(net: N) -> N {
    let Some(block) = N::block(net.ip(), net.prefix()) else {
        unreachable!()
    };
    block
}

// Ends a count of searches, of which there are no more than this.
fn end_within(searches: Searches, most: u32) {
    let _ = searches.end();
}

// From the clause `blocks`, a proof in another crate knows that each key is a network without host
// bits: it cannot see the private fields.
impl<N: CidrNetwork, V: Copy> PrefixTable<N, V> {
    /// The empty table.
    ///
    /// ```
    /// # use fosibegan_core::in_examples::*;
    /// let table = PrefixTable::<Ipv4Network, u32>::new(Global);
    /// assert!(table.is_empty());
    /// ```
    pub fn new(alloc: Global) -> Self {
        PrefixTable {
            values: Values::new(alloc),
            used: [0; 256],
        }
    }

    /// The number of blocks that have a value.
    ///
    /// ```
    /// # use fosibegan_core::in_examples::*;
    /// # ended(|| {
    /// let mut table = PrefixTable::new(Global);
    /// table.insert("10.0.0.0/8".parse::<Ipv4Network>()?, 2)?;
    /// assert_eq!(table.len(), 1);
    /// # Ok(())
    /// # });
    /// ```
    pub fn len(&self) -> usize {
        self.values.len()
    }

    /// Whether no block has a value.
    ///
    /// ```
    /// # use fosibegan_core::in_examples::*;
    /// # ended(|| {
    /// let mut table = PrefixTable::new(Global);
    /// table.insert("10.0.0.0/8".parse::<Ipv4Network>()?, 2)?;
    /// assert!(!table.is_empty());
    /// # Ok(())
    /// # });
    /// ```
    pub fn is_empty(&self) -> bool {
        self.len() == 0
    }

    /// The value of the block of `net`; `None` if the block has none.
    ///
    /// ```
    /// # use fosibegan_core::in_examples::*;
    /// # ended(|| {
    /// let mut table = PrefixTable::new(Global);
    /// table.insert("10.0.0.0/8".parse::<Ipv4Network>()?, 2)?;
    /// assert_eq!(table.get("10.1.9.32/8".parse()?), Some(2));
    /// assert_eq!(table.get("10.0.0.0/9".parse()?), None);
    /// # Ok(())
    /// # });
    /// ```
    pub fn get(&self, net: N) -> Option<V> {
        let mut searches = Searches::none();
        let value = self.values.probe(&mut searches, key_of(net));
        end_within(searches, 1);
        value
    }

    /// Whether the block of `net` has a value.
    ///
    /// ```
    /// # use fosibegan_core::in_examples::*;
    /// # ended(|| {
    /// let mut table = PrefixTable::new(Global);
    /// table.insert("10.0.0.0/8".parse::<Ipv4Network>()?, 2)?;
    /// assert!(table.contains_key("10.1.9.32/8".parse()?));
    /// # Ok(())
    /// # });
    /// ```
    pub fn contains_key(&self, net: N) -> bool {
        self.get(net).is_some()
    }

    /// The blocks and their values, in the order of networks: a block comes before the smaller ones
    /// that lie in it.
    ///
    /// ```
    /// # use fosibegan_core::in_examples::*;
    /// # ended(|| {
    /// let mut table = PrefixTable::new(Global);
    /// table.insert("10.0.0.0/8".parse::<Ipv4Network>()?, 2)?;
    /// assert_eq!(table.iter().next(), Some(("10.0.0.0/8".parse()?, 2)));
    /// # Ok(())
    /// # });
    /// ```
    pub fn iter(&self) -> Entries<'_, N, V> {
        self.values.entries()
    }

    /// Removes all blocks and frees the memory.
    ///
    /// ```
    /// # use fosibegan_core::in_examples::*;
    /// # ended(|| {
    /// let mut table = PrefixTable::new(Global);
    /// table.insert("10.0.0.0/8".parse::<Ipv4Network>()?, 2)?;
    /// table.clear();
    /// assert_eq!(table.len(), 0);
    /// # Ok(())
    /// # });
    /// ```
    pub fn clear(&mut self) {
        self.values.clear();
        self.used = [0; 256];
    }

    /// Sets the value of the block of `net`, and returns the previous value, or `None` if it had
    /// none.
    ///
    /// Allocates only for a new block. If memory runs out, the result is an error and the table is unchanged.
    ///
    /// ```
    /// # use fosibegan_core::in_examples::*;
    /// # ended(|| {
    /// let mut table = PrefixTable::new(Global);
    /// table.insert("10.0.0.0/8".parse::<Ipv4Network>()?, 2)?;
    /// assert_eq!(table.insert("10.1.9.32/8".parse()?, 7)?, Some(2));
    /// # Ok(())
    /// # });
    /// ```
    pub fn insert(&mut self, net: N, value: V) -> Result<Option<V>, AllocError> {
        self.insert_block(key_of(net), value)
    }

    // Inserts the block. A new block is counted with those of its prefix length.
    fn insert_block(&mut self, block: N, value: V) -> Result<Option<V>, AllocError> {
        let old = self.values.insert(block, value)?;
        if old.is_some() {
            return Ok(old);
        }
        let prefix = block.prefix();
        let has_room = self.used[prefix as usize] < self.values.len();
        debug_assert!(has_room);
        count_one_more(&mut self.used, prefix);
        Ok(None)
    }

    /// Removes the block of `net`, and returns its value, or `None` if it had none.
    ///
    /// ```
    /// # use fosibegan_core::in_examples::*;
    /// # ended(|| {
    /// let mut table = PrefixTable::new(Global);
    /// table.insert("10.0.0.0/8".parse::<Ipv4Network>()?, 2)?;
    /// assert_eq!(table.remove("10.1.9.32/8".parse()?), Some(2));
    /// assert_eq!(table.remove("10.1.9.32/8".parse()?), None);
    /// # Ok(())
    /// # });
    /// ```
    pub fn remove(&mut self, net: N) -> Option<V> {
        self.remove_block(key_of(net))
    }

    fn remove_block(&mut self, block: N) -> Option<V> {
        let old = self.values.remove(block)?;
        count_one_less(&mut self.used, block.prefix());
        Some(old)
    }

    /// The stored block with the greatest prefix length that holds the address, and its value;
    /// `None` if no stored block holds the address.
    ///
    /// ```
    /// # use fosibegan_core::in_examples::*;
    /// # ended(|| {
    /// let mut table = PrefixTable::new(Global);
    /// table.insert("10.0.0.0/8".parse::<Ipv4Network>()?, 2)?;
    /// assert_eq!(table.lookup(Ipv4Addr::new(10, 1, 9, 32)), Some(("10.0.0.0/8".parse()?, 2)));
    /// assert_eq!(table.lookup(Ipv4Addr::new(11, 0, 0, 0)), None);
    /// # Ok(())
    /// # });
    /// ```
    pub fn lookup(&self, addr: N::Addr) -> Option<(N, V)> {
        let mut searches = Searches::none();
        let found = longest_holding(&self.values, &self.used, &mut searches, addr);
        end_within(searches, u32::from(N::WIDTH) + 1);
        found
    }

    /// What `lookup` returns, and the number of look-ups in the map needed to try the block of each
    /// prefix length in turn, from `WIDTH` down: `WIDTH + 1` minus the prefix length of the block
    /// that is found, or `WIDTH + 1` if none is found.
    ///
    /// This call is for tests and proofs: `lookup` finds the same in fewer steps.
    ///
    /// ```
    /// # use fosibegan_core::in_examples::*;
    /// # ended(|| {
    /// let mut table = PrefixTable::new(Global);
    /// table.insert("10.0.0.0/8".parse::<Ipv4Network>()?, 2)?;
    /// let (found, steps) = table.lookup_steps(Ipv4Addr::new(10, 1, 9, 32));
    /// assert_eq!(found, Some(("10.0.0.0/8".parse()?, 2)));
    /// assert_eq!(steps, 25);
    /// # Ok(())
    /// # });
    /// ```
    pub fn lookup_steps(&self, addr: N::Addr) -> (Option<(N, V)>, u32) {
        let mut searches = Searches::none();
        let found = longest_in_turn(&self.values, &mut searches, addr);
        (found, searches.end())
    }
}

impl<'a, N: CidrNetwork, V: Copy> IntoIterator for &'a PrefixTable<N, V> {
    type Item = (N, V);

    type IntoIter = Entries<'a, N, V>;

    fn into_iter(self) -> Entries<'a, N, V> {
        self.iter()
    }
}

impl<N: CidrNetwork + Debug, V: Copy + Debug> Debug for PrefixTable<N, V> {
    /// Prints the blocks and their values, in order. The text is unspecified.
    fn fmt(&self, f: &mut Formatter<'_>) -> fmt::Result {
        let mut out = f.debug_map();
        for (network, value) in self {
            out.entry(&network, &value);
        }
        out.finish()
    }
}
