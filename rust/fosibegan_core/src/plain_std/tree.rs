//! A map in order: a tree whose nodes lie in two lists, and which grows by `try_reserve`. Rust's own has no way to tell that
//! there is no memory for a node.

use crate::plain_std::alloc::{AllocError, AllocFailed, Global};
use core::mem::replace;
use core::ops::RangeToInclusive;
use nodes::{Node, Nodes, NONE};

mod nodes;
#[cfg(test)]
mod tests;

/// More levels than there are where the lists have less than 2^32 nodes.
const LEVELS: usize = 32;

/// A map in order. Each node but the highest has at least a quarter of the entries that it has room for.
#[derive(Clone, Debug)]
pub struct BTreeMap<K, V, const MOST: usize = 16> {
    leaves: Nodes<K, V, MOST>,
    above: Nodes<K, u32, MOST>,
    /// The highest node; none before the first entry.
    root: u32,
    /// How many levels there are above the leaves.
    levels: usize,
    len: usize,
}

/// The nodes above a leaf, from the highest one on, and which of their items is taken.
type Path = [(u32, usize); LEVELS];

impl<K: Ord + Copy, V: Copy, const MOST: usize> BTreeMap<K, V, MOST> {
    const LEAST: usize = MOST / 4;

    /// The empty map.
    pub fn new(_: Global) -> Self {
        assert!(Self::LEAST >= 2, "a node above the leaves needs two items");
        BTreeMap {
            leaves: Nodes::new(),
            above: Nodes::new(),
            root: NONE,
            levels: 0,
            len: 0,
        }
    }

    /// How many entries there are.
    pub fn len(&self) -> usize {
        self.len
    }

    /// Whether there are none.
    pub fn is_empty(&self) -> bool {
        self.len == 0
    }

    /// The value of a key.
    pub fn get(&self, key: &K) -> Option<&V> {
        if self.root == NONE {
            return None;
        }
        let mut at = self.root;
        for _ in 0..self.levels {
            let node = self.above.at(at);
            at = node.items[node.child(|other| other.cmp(key).is_le())];
        }
        let leaf = self.leaves.at(at);
        for (other, item) in leaf.keys[..leaf.len].iter().zip(&leaf.items) {
            if other.cmp(key).is_ge() {
                return (other == key).then_some(item);
            }
        }
        None
    }

    /// The entries up to a key, from the last one on.
    pub fn range(&self, keys: RangeToInclusive<K>) -> Range<'_, K, V, MOST> {
        Range {
            map: self,
            end: keys.end,
            is_open: false,
        }
    }

    /// The last entry of those of which `is_in` is true, if these are the first ones.
    #[inline(always)]
    fn last_of(&self, is_in: impl Fn(&K) -> bool) -> Option<(&K, &V)> {
        if self.root == NONE {
            return None;
        }
        // The node before those that are gone through, and how many levels are below it.
        let (mut before, mut below) = (NONE, 0);
        let mut at = self.root;
        for level in (0..self.levels).rev() {
            let node = self.above.at(at);
            let child = node.child(&is_in);
            if child > 0 {
                (before, below) = (node.items[child - 1], level);
            }
            at = node.items[child];
        }
        let leaf = self.leaves.at(at);
        let count = leaf.keys[..leaf.len]
            .iter()
            .position(|key| !is_in(key))
            .unwrap_or(leaf.len);
        if count > 0 {
            return Some((&leaf.keys[count - 1], &leaf.items[count - 1]));
        }
        if before == NONE {
            return None;
        }
        for _ in 0..below {
            let node = self.above.at(before);
            before = node.items[node.len - 1];
        }
        let leaf = self.leaves.at(before);
        Some((&leaf.keys[leaf.len - 1], &leaf.items[leaf.len - 1]))
    }

    /// The entries in order.
    pub fn iter(&self) -> Iter<'_, K, V, MOST> {
        let mut leaf = self.root;
        for _ in 0..self.levels {
            leaf = self.above.at(leaf).items[0];
        }
        Iter {
            leaves: &self.leaves,
            leaf,
            place: 0,
        }
    }

    /// The leaf that a key belongs to, and what is above it.
    fn way_to(&self, key: &K) -> (u32, Path) {
        let (mut at, mut path) = (self.root, [(NONE, 0); LEVELS]);
        for step in &mut path[..self.levels] {
            let node = self.above.at(at);
            let child = node.child(|other| other.cmp(key).is_le());
            *step = (at, child);
            at = node.items[child];
        }
        (at, path)
    }

    /// Puts an entry in, and returns the value that its key had. Only a new key asks for memory, and only where a node has
    /// no room. If there is none, nothing has changed.
    pub fn insert(&mut self, key: K, value: V) -> Result<Option<V>, AllocFailed<(K, V)>> {
        let failed = |_| AllocFailed {
            value: (key, value),
        };
        if self.root == NONE {
            self.leaves.reserve(1).map_err(failed)?;
            self.root = self.leaves.add(Node::of(key, value));
            self.len = 1;
            return Ok(None);
        }
        let (at, path) = self.way_to(&key);
        let leaf = self.leaves.at_mut(at);
        let place = leaf.place_from(0, |other| other.cmp(&key).is_lt());
        if place < leaf.len && leaf.keys[place] == key {
            return Ok(Some(replace(&mut leaf.items[place], value)));
        }
        if leaf.len < MOST {
            leaf.insert(place, key, value);
        } else {
            self.reserve(&path).map_err(failed)?;
            let behind = self.leaves.at_mut(at).split(place, key, value);
            let separator = behind.keys[0];
            let number = self.leaves.add(behind);
            self.leaves.at_mut(at).next = number;
            self.put_above(&path, separator, number);
        }
        self.len += 1;
        Ok(None)
    }

    /// Asks for memory for a leaf, and for each node above it that a split of the one below splits too.
    fn reserve(&mut self, path: &Path) -> Result<(), AllocError> {
        let steps = &path[..self.levels];
        let full = steps
            .iter()
            .rev()
            .take_while(|step| self.above.at(step.0).len == MOST)
            .count();
        self.leaves.reserve(1)?;
        self.above.reserve(full + usize::from(full == self.levels))
    }

    /// Puts a node that was made at the end of a path above it.
    fn put_above(&mut self, path: &Path, mut key: K, mut number: u32) {
        for (at, child) in path[..self.levels].iter().rev() {
            let node = self.above.at_mut(*at);
            if node.len < MOST {
                return node.insert(child + 1, key, number);
            }
            let behind = node.split(child + 1, key, number);
            key = behind.keys[0];
            number = self.above.add(behind);
        }
        let mut root = Node::of(key, self.root);
        root.insert(1, key, number);
        self.root = self.above.add(root);
        self.levels += 1;
    }

    /// Takes an entry out, and returns its value.
    pub fn remove(&mut self, key: &K) -> Option<V> {
        if self.root == NONE {
            return None;
        }
        let (at, path) = self.way_to(key);
        let leaf = self.leaves.at_mut(at);
        let place = leaf.place_from(0, |other| other.cmp(key).is_lt());
        if place == leaf.len || leaf.keys[place] != *key {
            return None;
        }
        let value = leaf.remove(place);
        self.len -= 1;
        if leaf.len < Self::LEAST {
            self.fill_up(&path);
        }
        Some(value)
    }

    /// Brings the leaf at the end of a path, and each node above it that needs this, to enough entries.
    fn fill_up(&mut self, path: &Path) {
        for level in (0..self.levels).rev() {
            let (at, child) = path[level];
            let node = self.above.at(at);
            let first = child.saturating_sub(1);
            let (left, right, key) = (
                node.items[first],
                node.items[first + 1],
                node.keys[first + 1],
            );
            let separator = if level + 1 == self.levels {
                self.leaves.even(left, right)
            } else {
                self.above.at_mut(right).keys[0] = key;
                self.above.even(left, right)
            };
            let node = self.above.at_mut(at);
            match separator {
                Some(key) => node.keys[first + 1] = key,
                None => {
                    node.remove(first + 1);
                }
            }
            if node.len >= Self::LEAST {
                return;
            }
        }
        if self.levels > 0 && self.above.at(self.root).len == 1 {
            let only = self.above.at(self.root).items[0];
            self.above.release(self.root);
            self.root = only;
            self.levels -= 1;
        }
    }

    /// Takes all entries out, and gives the memory back.
    pub fn clear(&mut self) {
        *self = BTreeMap::new(Global);
    }
}

/// The entries of a map up to a key.
#[derive(Debug)]
pub struct Range<'a, K, V, const MOST: usize = 16> {
    map: &'a BTreeMap<K, V, MOST>,
    end: K,
    /// Whether the entry of the end is left out.
    is_open: bool,
}

impl<'a, K: Ord + Copy, V: Copy, const MOST: usize> Range<'a, K, V, MOST> {
    /// The last entry that is left.
    #[inline]
    pub fn next_back(&mut self) -> Option<(&'a K, &'a V)> {
        let end = self.end;
        let last = if self.is_open {
            self.map.last_of(|key| key.cmp(&end).is_lt())
        } else {
            self.map.last_of(|key| key.cmp(&end).is_le())
        }?;
        (self.end, self.is_open) = (*last.0, true);
        Some(last)
    }
}

/// The entries of a map in order.
#[derive(Debug)]
pub struct Iter<'a, K, V, const MOST: usize = 16> {
    leaves: &'a Nodes<K, V, MOST>,
    leaf: u32,
    place: usize,
}

impl<K, V, const MOST: usize> Clone for Iter<'_, K, V, MOST> {
    fn clone(&self) -> Self {
        Iter { ..*self }
    }
}

impl<'a, K: Copy, V: Copy, const MOST: usize> Iterator for Iter<'a, K, V, MOST> {
    type Item = (&'a K, &'a V);

    fn next(&mut self) -> Option<Self::Item> {
        while self.leaf != NONE {
            let leaf = self.leaves.at(self.leaf);
            if self.place < leaf.len {
                self.place += 1;
                return Some((&leaf.keys[self.place - 1], &leaf.items[self.place - 1]));
            }
            (self.leaf, self.place) = (leaf.next, 0);
        }
        None
    }
}
