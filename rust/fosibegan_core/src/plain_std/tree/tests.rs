//! The map beside Rust's own.

use super::*;
use rust_alloc::collections::BTreeMap as Tree;
use rust_alloc::vec::Vec;

/// Numbers that look like random ones.
struct Numbers(u64);

impl Numbers {
    fn below(&mut self, end: u32) -> u32 {
        self.0 = self
            .0
            .wrapping_mul(6_364_136_223_846_793_005)
            .wrapping_add(1_442_695_040_888_963_407);
        ((self.0 >> 33) % u64::from(end)) as u32
    }
}

/// Sees that a node, its subtree and what the map says of them is in order: returns how many entries it has.
fn count<const MOST: usize>(
    map: &BTreeMap<u32, u32, MOST>,
    at: u32,
    levels: usize,
    from: u32,
    to: u32,
) -> usize {
    let least = if at == map.root { 0 } else { MOST / 4 };
    if levels == 0 {
        let leaf = map.leaves.at(at);
        let keys = &leaf.keys[..leaf.len];
        assert!(leaf.len >= least && keys.iter().all(|key| from <= *key && *key < to));
        assert!(keys.windows(2).all(|pair| pair[0] < pair[1]));
        return leaf.len;
    }
    let node = map.above.at(at);
    assert!(node.len >= least.max(2));
    let ends: Vec<u32> = [&[from], &node.keys[1..node.len], &[to]].concat();
    assert!(ends.windows(2).all(|pair| pair[0] < pair[1]));
    let of = |child: usize| {
        count(
            map,
            node.items[child],
            levels - 1,
            ends[child],
            ends[child + 1],
        )
    };
    (0..node.len).map(of).sum()
}

/// Sees that a map has what the tree has, and no node that is neither in it nor free.
fn compare<const MOST: usize>(map: &BTreeMap<u32, u32, MOST>, tree: &Tree<u32, u32>) {
    assert_eq!((map.len(), map.is_empty()), (tree.len(), tree.is_empty()));
    assert!(map.iter().eq(tree.iter()));
    if map.root != NONE {
        assert_eq!(count(map, map.root, map.levels, 0, u32::MAX), tree.len());
    }
    assert!(map.leaves.all.len() - map.leaves.free_count <= 1 + tree.len() / (MOST / 4));
}

/// Inserts, removes and asks, where keys are below an end, and so many of a hundred steps are inserts.
fn run<const MOST: usize>(numbers: &mut Numbers, phases: &[(u32, u32, u32)]) {
    let (mut map, mut tree) = (BTreeMap::<u32, u32, MOST>::new(Global), Tree::new());
    for (steps, end, inserts) in phases {
        for step in 0..*steps {
            let key = numbers.below(*end);
            if numbers.below(100) < *inserts {
                assert_eq!(map.insert(key, step).ok(), Some(tree.insert(key, step)));
            } else {
                assert_eq!(map.remove(&key), tree.remove(&key));
            }
            let asked = numbers.below(*end);
            assert_eq!(map.get(&asked), tree.get(&asked));
            let (mut ours, mut theirs) = (map.range(..=asked), tree.range(..=asked));
            for _ in 0..3 {
                assert_eq!(ours.next_back(), theirs.next_back());
            }
            if step % 64 == 0 {
                compare(&map, &tree);
            }
        }
        compare(&map, &tree);
    }
    map.clear();
    compare(&map, &Tree::new());
}

#[test]
fn beside_rusts_own() {
    let mut numbers = Numbers(1);
    for end in [40, 3_000] {
        run::<16>(
            &mut numbers,
            &[
                (5_000, end, 80),
                (5_000, end, 20),
                (3_000, end, 50),
                (5_000, end, 5),
            ],
        );
        run::<8>(
            &mut numbers,
            &[
                (3_000, end, 80),
                (3_000, end, 20),
                (3_000, end, 50),
                (4_000, end, 5),
            ],
        );
    }
}

#[test]
fn in_order_and_against_it() {
    for is_back in [false, true] {
        let (mut map, mut tree) = (BTreeMap::<u32, u32, 8>::new(Global), Tree::new());
        let key = |step: u32| if is_back { 2_000 - step } else { step };
        for step in 0..2_000 {
            assert_eq!(
                map.insert(key(step), step).ok(),
                Some(tree.insert(key(step), step))
            );
        }
        compare(&map, &tree);
        assert!(map.levels >= 3);
        for step in 0..2_000 {
            assert_eq!(map.remove(&key(step)), tree.remove(&key(step)));
            compare(&map, &tree);
        }
        assert_eq!(map.levels, 0);
        assert_eq!(map.range(..=u32::MAX).next_back(), None);
    }
}

/// What is free is taken before more is asked for.
#[test]
fn nodes_are_taken_again() {
    let mut map = BTreeMap::<u32, u32, 8>::new(Global);
    for _ in 0..3 {
        for key in 0..1_000 {
            assert!(map.insert(key, key).is_ok());
        }
        for key in 0..1_000 {
            assert_eq!(map.remove(&key), Some(key));
        }
    }
    assert!(map.leaves.all.len() <= 260 && map.above.all.len() <= 90);
}
