// Written by scripts/plain out of crates/ipnetwork_index/src/partition.rt

//! All addresses of a family, cut into ranges.

use crate::plain_std::vec::Vec;
use crate::plain_std::vec;
use crate::ipnetwork_index::halves::{all_end, are_worth_it, highs_of, place_by_halves};
use crate::ipnetwork_index::indexed_network::IndexedNetwork;
use crate::ipnetwork_index::key::Key;
use crate::ipnetwork_index::search::place_of;
use crate::ipnetwork_index::starts::{span_of, write_starts};
use crate::plain_std::alloc::{AllocError, Global};

/// The addresses of a family, cut into ranges.
#[derive(Clone)]
pub(crate) struct Partition<N: IndexedNetwork> {
    // The last number of each range, and three more times that of the last range.
    lasts: Vec<N::Number>,
    // For each part of the numbers or of the high halves from a base on, how many ranges end before
    // it. The counts do not decrease.
    starts: Vec<u32>,
    base: N::Number,
    // Each part has 2 ^ shift numbers or high halves.
    shift: u32,
    // Whether the high halves are searched first; these are then those of the last numbers. If each
    // last number is the greatest with its high half, the high halves determine the place.
    by_halves: bool,
    highs: Vec<N::High>,
    high_base: N::High,
    highs_tell: bool,
}

impl<N: IndexedNetwork> Partition<N> {
    /// The ranges with these last addresses, searched in 2^`bits` parts.
    pub(crate) fn new(alloc: Global, addresses: &[N::Addr], bits: u32) -> Result<Self, AllocError> {
        let lasts = padded::<N>(numbers_of::<N>(alloc, addresses)?)?;
        Self::of_padded(alloc, lasts, bits)
    }

    // The ranges with these last numbers, searched by high halves if enough of these differ.
    fn of_padded(alloc: Global, lasts: Vec<N::Number>, bits: u32) -> Result<Self, AllocError> {
        if N::has_halves() {
            let highs = highs_of::<N>(alloc, lasts.as_slice())?;
            if are_worth_it::<N::High>(highs.as_slice()) {
                return Self::of_halves(alloc, lasts, highs, bits);
            }
        }
        Self::of_wholes(alloc, lasts, bits)
    }

    // The ranges with these last numbers, searched by whole numbers.
    fn of_wholes(alloc: Global, lasts: Vec<N::Number>, bits: u32) -> Result<Self, AllocError> {
        let (base, shift) = span_of::<N::Number>(lasts.as_slice(), bits);
        let starts = starts_of::<N::Number>(alloc, lasts.as_slice(), base, shift, 1 << bits)?;
        Ok(Partition {
            lasts,
            starts,
            base,
            shift,
            by_halves: false,
            highs: Vec::new(alloc),
            high_base: N::high_of(base),
            highs_tell: false,
        })
    }

    // The ranges with these last numbers, searched first by these high halves.
    fn of_halves(
        alloc: Global,
        lasts: Vec<N::Number>,
        highs: Vec<N::High>,
        bits: u32,
    ) -> Result<Self, AllocError> {
        let (high_base, shift) = span_of::<N::High>(highs.as_slice(), bits);
        let starts = starts_of::<N::High>(alloc, highs.as_slice(), high_base, shift, 1 << bits)?;
        let highs_tell = all_end::<N>(lasts.as_slice());
        let base = lasts[0];
        Ok(Partition {
            lasts,
            starts,
            base,
            shift,
            by_halves: true,
            highs,
            high_base,
            highs_tell,
        })
    }

    /// The number of ranges.
    pub(crate) fn len(&self) -> usize {
        self.lasts.len() - 3
    }

    /// The place of the range that the number lies in.
    pub(crate) fn place_of(&self, number: N::Number) -> usize {
        let lasts = self.lasts.as_slice();
        // A single range has all numbers.
        if lasts.len() == 4 {
            return 0;
        }
        let starts = self.starts.as_slice();
        let by_halves = self.by_halves;
        if by_halves {
            let highs = self.highs.as_slice();
            return place_by_halves::<N>(
                lasts,
                highs,
                starts,
                self.high_base,
                self.shift,
                self.highs_tell,
                number,
            );
        }
        place_of::<N::Number>(lasts, starts, self.base, self.shift, number)
    }
}

// The numbers of the addresses, with room for three more.
fn numbers_of<N: IndexedNetwork>(
    alloc: Global,
    addresses: &[N::Addr],
) -> Result<Vec<N::Number>, AllocError> {
    let mut numbers = Vec::with_capacity(alloc, addresses.len().saturating_add(3))?;
    for address in addresses {
        numbers.push(N::number_of(*address))?;
    }
    Ok(numbers)
}

// The last numbers of ranges, and three more times the last of them.
fn padded<N: IndexedNetwork>(mut lasts: Vec<N::Number>) -> Result<Vec<N::Number>, AllocError> {
    let greatest = N::greatest();
    lasts.push(greatest)?;
    lasts.push(greatest)?;
    lasts.push(greatest)?;
    Ok(lasts)
}

// Where the search for the numbers of each of `count` parts begins.
fn starts_of<K: Key>(
    alloc: Global,
    keys: &[K],
    base: K,
    shift: u32,
    count: usize,
) -> Result<Vec<u32>, AllocError> {
    let mut starts = vec![in alloc; 0u32; count]?;
    write_starts::<K>(keys, base, shift, starts.as_mut_slice());
    Ok(starts)
}
