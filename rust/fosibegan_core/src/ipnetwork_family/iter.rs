// Written by scripts/plain out of crates/ipnetwork_family/src/iter.rt

//! The members of a network, in order.

use crate::ipnetwork_family::address::Address;
use crate::plain_std::alloc::AllocError;

/// An iterator over the members of a network, in ascending order.
///
/// ```
/// # use fosibegan_core::in_examples::*;
/// # ended(|| {
/// let mut members = "192.0.2.7/30".parse::<Ipv4Network>()?.iter();
/// assert_eq!(members.next(), Some(Ipv4Addr::new(192, 0, 2, 4)));
/// assert_eq!(members.next(), Some(Ipv4Addr::new(192, 0, 2, 5)));
/// # Ok(())
/// # });
/// ```
#[derive(Debug)]
pub struct NetworkIterator<A: Address> {
    next: A,
    last: A,
    is_done: bool,
}

/// Whether two addresses are the same.
fn same<A: Address>(a: A, b: A) -> bool {
    a == b
}

impl<A: Address> NetworkIterator<A> {
    /// The addresses from `first` to `last`, inclusive.
    pub(crate) fn between(first: A, last: A) -> Self {
        NetworkIterator {
            next: first,
            last,
            is_done: false,
        }
    }

    /// The member that comes after `n` others: the last of those that `n + 1` calls of `next`
    /// return. `None` if at most `n` members are left; after that none is. Takes one step for any
    /// `n`.
    ///
    /// ```
    /// # use fosibegan_core::in_examples::*;
    /// # ended(|| {
    /// let mut members = "10.0.0.0/8".parse::<Ipv4Network>()?.iter();
    /// assert_eq!(members.nth(65536), Some(Ipv4Addr::new(10, 1, 0, 0)));
    /// assert_eq!(members.next(), Some(Ipv4Addr::new(10, 1, 0, 1)));
    /// assert_eq!(members.nth(16_777_216), None);
    /// # Ok(())
    /// # });
    /// ```
    pub fn nth(&mut self, n: usize) -> Option<A> {
        if self.is_done {
            return None;
        }
        self.last.law_of_width();
        let left = self.next.distance(self.last);
        if left < n as u128 {
            self.is_done = true;
            return None;
        }
        let item = self.next.plus(n as u128);
        if same(item, self.last) {
            self.is_done = true;
        } else {
            self.next = item.next();
        }
        Some(item)
    }
}

impl<A: Address> Iterator for NetworkIterator<A> {
    type Item = A;

    fn next(&mut self) -> Option<A> {
        if self.is_done {
            return None;
        }
        let item = self.next;
        self.last.law_of_width();
        if same(item, self.last) {
            self.is_done = true;
        } else {
            self.next = item.next();
        }
        Some(item)
    }
}

impl<A: Address> Clone for NetworkIterator<A> {
    fn clone(&self) -> Self {
        crate::plain_std::made(|| -> Result<Self, AllocError> {
        Ok(NetworkIterator { ..*self })
    })
    }
}
