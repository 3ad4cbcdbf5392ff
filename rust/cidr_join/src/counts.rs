// Written by scripts/plain out of crates/cidr_join/src/counts.rt

//! Counts of the texts that are printed for lines.

use fosibegan_core::plain_std::vec::Vec;
use fosibegan_core::plain_std::vec;
use crate::found::Found;
use crate::tally::{Row, Tally};
use fosibegan_core::plain_std::alloc::{AllocError, Global};

/// How often each text was counted: by number, if a number stands for it, or by its bytes.
pub struct Counts {
    // How often each number was counted.
    pub(crate) numbers: Vec<u64>,
    // How often each other text was counted.
    pub(crate) tally: Tally,
}

impl Counts {
    /// Creates counts of nothing, with `count` numbers. Returns `AllocError` if memory runs out.
    pub(crate) fn new(alloc: Global, count: usize) -> Result<Counts, AllocError> {
        let numbers = vec![in alloc; 0u64; count]?;
        let tally = Tally::new(alloc);
        Ok(Counts { numbers, tally })
    }

    /// Counts the text that a number stands for.
    pub(crate) fn count_number(&mut self, number: usize) {
        if number >= self.numbers.len() {
            return;
        }
        add_one(self.numbers.as_mut_slice(), number);
    }

    /// Counts a text by its bytes. Allocates only if it was not counted before, and returns
    /// `AllocError` if memory runs out.
    pub(crate) fn count_text(&mut self, alloc: Global, text: &[u8]) -> Result<(), AllocError> {
        self.tally.count(alloc, text, 1, false)
    }

    /// Returns the counts and their texts, the greatest count first, equal counts in the order of
    /// the bytes of the texts. `founds` is what the numbers stand for. If `zeros`, its networks and
    /// values that were not counted have the count 0. Returns `AllocError` if memory runs out.
    pub(crate) fn into_rows(
        self,
        alloc: Global,
        founds: &[Found<'_>],
        zeros: bool,
    ) -> Result<Vec<Row>, AllocError> {
        let mut tally = self.tally;
        count_each(alloc, founds, self.numbers.as_slice(), zeros, &mut tally)?;
        tally.into_rows(alloc)
    }
}

// Counts a number once more.
fn add_one(numbers: &mut [u64], number: usize) {
    numbers[number] = numbers[number].saturating_add(1);
}

// Counts the text that each number stands for as often as the number was counted.
fn count_each(
    alloc: Global,
    founds: &[Found<'_>],
    numbers: &[u64],
    zeros: bool,
    tally: &mut Tally,
) -> Result<(), AllocError> {
    for place in 0..founds.len().min(numbers.len()) {
        count_found(alloc, &founds[place], numbers[place], zeros, tally)?;
    }
    Ok(())
}

// Counts the text for what was found `count` times. If `zeros`, a network or value is kept even if
// `count` is 0.
fn count_found(
    alloc: Global,
    found: &Found<'_>,
    count: u64,
    zeros: bool,
    tally: &mut Tally,
) -> Result<(), AllocError> {
    match found {
        Found::Network(network) => {
            tally.count(alloc, network.canonical().as_bytes(), count, zeros)
        }
        Found::Value(value) => tally.count(alloc, value.bytes(), count, zeros),
        Found::Nothing => tally.count(alloc, b"-", count, false),
    }
}
