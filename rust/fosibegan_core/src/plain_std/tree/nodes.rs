//! The nodes of a tree.

use crate::plain_std::alloc::AllocError;
use rust_alloc::vec::Vec;

/// Stands for no node.
pub(super) const NONE: u32 = u32::MAX;

/// Keys in ascending order, each with an item. In a leaf that is a value; above the leaves it is the node that has the keys
/// from this one on, up to the next. There the first key says nothing: what is less than the second goes to the first item.
#[derive(Clone, Debug)]
pub(super) struct Node<K, T, const MOST: usize> {
    pub(super) len: usize,
    /// Of a leaf the one behind it; of a node that is free the next of these.
    pub(super) next: u32,
    pub(super) keys: [K; MOST],
    pub(super) items: [T; MOST],
}

impl<K: Copy, T: Copy, const MOST: usize> Node<K, T, MOST> {
    pub(super) fn of(key: K, item: T) -> Self {
        Node {
            len: 1,
            next: NONE,
            keys: [key; MOST],
            items: [item; MOST],
        }
    }

    /// The first place from `from` on whose key is not one of those of which `is_in` is true: these are the first ones.
    #[inline(always)]
    pub(super) fn place_from(&self, from: usize, is_in: impl Fn(&K) -> bool) -> usize {
        let mut place = from;
        while place < self.len && is_in(&self.keys[place]) {
            place += 1;
        }
        place
    }

    /// Which of the items has the last of these keys.
    #[inline(always)]
    pub(super) fn child(&self, is_in: impl Fn(&K) -> bool) -> usize {
        self.place_from(1, is_in) - 1
    }

    pub(super) fn insert(&mut self, at: usize, key: K, item: T) {
        self.keys.copy_within(at..self.len, at + 1);
        self.items.copy_within(at..self.len, at + 1);
        self.keys[at] = key;
        self.items[at] = item;
        self.len += 1;
    }

    pub(super) fn remove(&mut self, at: usize) -> T {
        let item = self.items[at];
        self.keys.copy_within(at + 1..self.len, at);
        self.items.copy_within(at + 1..self.len, at);
        self.len -= 1;
        item
    }

    /// Puts an entry in, where there is no room. The greater half is returned as the node behind.
    pub(super) fn split(&mut self, at: usize, key: K, item: T) -> Self {
        let half = MOST / 2;
        let mut behind = Node::of(key, item);
        behind.len = 0;
        behind.next = self.next;
        self.give_back_half(half, &mut behind);
        if at <= half {
            self.insert(at, key, item);
        } else {
            behind.insert(at - half, key, item);
        }
        behind
    }

    /// Keeps so many entries, and puts the others before those of the node behind.
    fn give_back_half(&mut self, kept: usize, behind: &mut Self) {
        let count = self.len - kept;
        behind.keys.copy_within(..behind.len, count);
        behind.items.copy_within(..behind.len, count);
        behind.keys[..count].copy_from_slice(&self.keys[kept..self.len]);
        behind.items[..count].copy_from_slice(&self.items[kept..self.len]);
        behind.len += count;
        self.len = kept;
    }

    /// Puts so many entries of the node behind, its first ones, behind those of this one.
    fn take(&mut self, count: usize, behind: &mut Self) {
        let end = self.len + count;
        self.keys[self.len..end].copy_from_slice(&behind.keys[..count]);
        self.items[self.len..end].copy_from_slice(&behind.items[..count]);
        self.len = end;
        behind.keys.copy_within(count..behind.len, 0);
        behind.items.copy_within(count..behind.len, 0);
        behind.len -= count;
    }
}

/// Nodes by their number, and those that are free.
#[derive(Clone, Debug)]
pub(super) struct Nodes<K, T, const MOST: usize> {
    pub(super) all: Vec<Node<K, T, MOST>>,
    free: u32,
    pub(super) free_count: usize,
}

impl<K: Copy, T: Copy, const MOST: usize> Nodes<K, T, MOST> {
    pub(super) fn new() -> Self {
        Nodes {
            all: Vec::new(),
            free: NONE,
            free_count: 0,
        }
    }

    pub(super) fn at(&self, number: u32) -> &Node<K, T, MOST> {
        &self.all[number as usize]
    }

    pub(super) fn at_mut(&mut self, number: u32) -> &mut Node<K, T, MOST> {
        &mut self.all[number as usize]
    }

    /// Asks for memory for so many nodes more, unless there are free ones.
    pub(super) fn reserve(&mut self, count: usize) -> Result<(), AllocError> {
        let count = count.saturating_sub(self.free_count);
        if count >= NONE as usize - self.all.len() {
            return Err(AllocError);
        }
        Ok(self.all.try_reserve(count)?)
    }

    /// Adds a node, for which memory was asked before, and returns its number.
    pub(super) fn add(&mut self, node: Node<K, T, MOST>) -> u32 {
        let number = self.free;
        if number == NONE {
            self.all.push(node);
            return self.all.len() as u32 - 1;
        }
        self.free = self.at(number).next;
        self.free_count -= 1;
        *self.at_mut(number) = node;
        number
    }

    pub(super) fn release(&mut self, number: u32) {
        let free = self.free;
        self.at_mut(number).next = free;
        self.free = number;
        self.free_count += 1;
    }

    /// Makes one node of two neighbours, or, if they have too many entries, two of the same size: then the first key of the
    /// second is returned.
    pub(super) fn even(&mut self, left: u32, right: u32) -> Option<K> {
        let (low, high) = (left.min(right) as usize, left.max(right) as usize);
        let (before, from_high) = self.all.split_at_mut(high);
        let (one, other) = (&mut before[low], &mut from_high[0]);
        let (first, second) = if left < right {
            (one, other)
        } else {
            (other, one)
        };
        let all = first.len + second.len;
        if all <= MOST {
            first.take(second.len, second);
            first.next = second.next;
            self.release(right);
            return None;
        }
        if first.len < all / 2 {
            first.take(all / 2 - first.len, second);
        } else {
            first.give_back_half(all / 2, second);
        }
        Some(second.keys[0])
    }
}
