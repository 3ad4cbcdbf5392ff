//! What the tests of networks have in common.

use core::fmt::Debug;
use core::iter::FusedIterator;
use fosibegan::{IpNetwork, Ipv4Network, Ipv6Network};

pub fn v4(text: &str) -> Ipv4Network {
    text.parse().unwrap()
}

pub fn v6(text: &str) -> Ipv6Network {
    text.parse().unwrap()
}

pub fn either(text: &str) -> IpNetwork {
    text.parse().unwrap()
}

/// Random numbers that are the same in each run.
pub struct Random(pub u64);

impl Random {
    pub fn word(&mut self) -> u64 {
        self.0 ^= self.0 << 13;
        self.0 ^= self.0 >> 7;
        self.0 ^= self.0 << 17;
        self.0.wrapping_mul(0x2545_f491_4f6c_dd1d)
    }

    pub fn below(&mut self, bound: u64) -> u64 {
        self.word() % bound
    }
}

/// An iterator has these items, and says how many are left, and has none after its end.
pub fn has_items<T: Clone + Debug + PartialEq>(
    items: impl FusedIterator<Item = T> + Clone + Debug,
    expected: &[T],
) {
    let mut left = items.clone();
    for (at, item) in expected.iter().enumerate() {
        let count = expected.len() - at;
        assert_eq!(left.size_hint(), (count, Some(count)));
        assert_eq!(left.clone().collect::<Vec<_>>(), expected[at..]);
        assert_eq!(left.next().as_ref(), Some(item));
    }
    for _ in 0..3 {
        assert_eq!(left.size_hint(), (0, Some(0)));
        assert_eq!(left.next(), None);
    }
    assert_eq!(items.clone().count(), expected.len());
    assert_eq!(items.clone().last().as_ref(), expected.last());
    for n in (0..expected.len() + 3).chain([usize::MAX - 1, usize::MAX]) {
        let mut left = items.clone();
        assert_eq!(left.nth(n).as_ref(), expected.get(n));
        let more = expected.len().saturating_sub(n.saturating_add(1));
        assert_eq!(left.count(), more);
    }
}

/// The same from both ends.
pub fn has_items_from_both_ends<T: Clone + Debug + Ord>(
    items: impl DoubleEndedIterator<Item = T> + Clone + Debug + FusedIterator,
    expected: &[T],
) {
    has_items(items.clone(), expected);
    let reversed: Vec<T> = expected.iter().rev().cloned().collect();
    has_items(items.clone().rev(), &reversed);
    assert_eq!(items.clone().min().as_ref(), expected.first());
    assert_eq!(items.clone().max().as_ref(), expected.last());

    let mut random = Random(expected.len() as u64 + 1);
    for _ in 0..20 {
        let (mut left, mut between) = (items.clone(), expected);
        while !between.is_empty() {
            let n = random.below(3) as usize;
            let taken = (n + 1).min(between.len());
            if random.below(2) == 0 {
                assert_eq!(left.nth(n).as_ref(), between.get(n));
                between = &between[taken..];
            } else {
                assert_eq!(left.nth_back(n).as_ref(), between.iter().rev().nth(n));
                between = &between[..between.len() - taken];
            }
            assert_eq!(left.size_hint(), (between.len(), Some(between.len())));
        }
        assert_eq!(
            (left.next(), left.next_back(), left.next()),
            (None, None, None)
        );
        assert_eq!(
            (left.nth(1), left.nth_back(1), left.nth(5)),
            (None, None, None)
        );
    }
}
