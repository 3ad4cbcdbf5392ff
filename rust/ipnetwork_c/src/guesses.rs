// Written by scripts/plain out of crates/ipnetwork_c/src/guesses.rt

//! Guesses where the searches for several rows of a column end, before these searches are made: no
//! guess waits for another, and no search waits for loads from the list or its index.

use crate::search_hint::SearchHint;
use crate::upper_bound::guess_by_three;
use fosibegan_core::ipnetwork_blocks::AddressSpace;

// The number of rows for which guesses are made at once.
const ROWS: usize = 64;

/// The guesses for a row and those around it.
pub(crate) struct Guesses {
    /// The guess for row i is at index i % `ROWS`.
    rows: [usize; ROWS],
}

impl Guesses {
    /// Returns a value without guesses.
    pub(crate) fn new() -> Self {
        Guesses { rows: [0; ROWS] }
    }

    /// Returns the guess for a row. If the rows come in order, the first of every `ROWS` rows makes
    /// the guesses for all of them.
    #[inline(always)]
    pub(crate) fn of_row<N: AddressSpace, H: SearchHint<N>>(
        &mut self,
        list: &[H],
        index: &[u32],
        addresses: &[H::Octets],
        row: usize,
    ) -> usize {
        if row % ROWS == 0 {
            guess_rows::<N, H>(list, index, &addresses[row..], &mut self.rows);
        }
        self.rows[row % ROWS]
    }
}

// Makes the guesses for the first `ROWS` of these addresses.
#[inline(never)]
fn guess_rows<N: AddressSpace, H: SearchHint<N>>(
    list: &[H],
    index: &[u32],
    addresses: &[H::Octets],
    guesses: &mut [usize; ROWS],
) {
    for (row, address) in addresses.iter().take(ROWS).enumerate() {
        guesses[row] = guess_by_three::<N, H>(list, index, H::number_in(address));
    }
}
