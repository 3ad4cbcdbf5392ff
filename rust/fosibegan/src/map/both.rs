//! Entries of IPv4, and then entries of IPv6.

use super::parts::{Listed, network_of_v4, network_of_v6};
use crate::Network;
use crate::convert::{CoreV4, CoreV6};
use core::marker::PhantomData;

/// Entries of IPv4, and then entries of IPv6, under the networks of this crate.
pub(super) struct Both<N, A, B> {
    v4: A,
    v6: B,
    networks: PhantomData<N>,
}

impl<N, A, B> Both<N, A, B> {
    pub(super) fn new(v4: A, v6: B) -> Self {
        Both {
            v4,
            v6,
            networks: PhantomData,
        }
    }
}

impl<N, A: Clone, B: Clone> Clone for Both<N, A, B> {
    fn clone(&self) -> Self {
        Both::new(self.v4.clone(), self.v6.clone())
    }
}

impl<N, T, A, B> Iterator for Both<N, A, B>
where
    N: Network,
    A: Iterator<Item = (CoreV4, T)>,
    B: Iterator<Item = (CoreV6, T)>,
{
    type Item = (N, T);

    #[inline]
    fn next(&mut self) -> Option<(N, T)> {
        match self.v4.next() {
            Some((block, value)) => Some((network_of_v4(block), value)),
            None => self
                .v6
                .next()
                .map(|(block, value)| (network_of_v6(block), value)),
        }
    }

    fn size_hint(&self) -> (usize, Option<usize>) {
        let ((least, most), (other_least, other_most)) = (self.v4.size_hint(), self.v6.size_hint());
        let most = most
            .zip(other_most)
            .and_then(|(most, other)| most.checked_add(other));
        (least.saturating_add(other_least), most)
    }

    fn fold<S, F: FnMut(S, (N, T)) -> S>(self, first: S, mut step: F) -> S {
        let so_far = self.v4.fold(first, |so_far, (block, value)| {
            step(so_far, (network_of_v4(block), value))
        });
        self.v6.fold(so_far, |so_far, (block, value)| {
            step(so_far, (network_of_v6(block), value))
        })
    }
}

impl<N, T, A, B> DoubleEndedIterator for Both<N, A, B>
where
    N: Network,
    A: DoubleEndedIterator<Item = (CoreV4, T)>,
    B: DoubleEndedIterator<Item = (CoreV6, T)>,
{
    #[inline]
    fn next_back(&mut self) -> Option<(N, T)> {
        match self.v6.next_back() {
            Some((block, value)) => Some((network_of_v6(block), value)),
            None => self
                .v4
                .next_back()
                .map(|(block, value)| (network_of_v4(block), value)),
        }
    }
}

/// The length is at most twice 2^32, since a family has no more entries.
impl<N, T, A, B> ExactSizeIterator for Both<N, A, B>
where
    N: Network,
    A: ExactSizeIterator<Item = (CoreV4, T)>,
    B: ExactSizeIterator<Item = (CoreV6, T)>,
{
}

impl<N: Network, T> Both<N, Listed<CoreV4, T>, Listed<CoreV6, T>> {
    /// What is still to come.
    pub(super) fn listed(&self) -> impl Iterator<Item = (N, &T)> {
        let v4 = self
            .v4
            .as_slice()
            .iter()
            .map(|(block, value)| (network_of_v4(*block), value));
        let v6 = self
            .v6
            .as_slice()
            .iter()
            .map(|(block, value)| (network_of_v6(*block), value));
        v4.chain(v6)
    }
}
