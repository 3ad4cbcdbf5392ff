// Written by scripts/plain out of crates/cidr_join/src/tally.rt

//! The counts of texts.

use fosibegan_core::plain_std::vec::Vec;
use fosibegan_core::plain_std::alloc::{AllocError, Global};
use std::cmp::Reverse;
use fosibegan_core::plain_std::collections::HashMap;

/// A count and its text. The count is reversed, so that greater ones are sorted first.
pub(crate) type Row = (Reverse<u64>, Vec<u8>);

/// How often each text was counted. It keeps a copy of each text that was counted.
pub struct Tally {
    counts: HashMap<Vec<u8>, u64>,
}

impl Tally {
    /// Creates a tally of nothing.
    pub(crate) fn new(alloc: Global) -> Tally {
        Tally {
            counts: HashMap::new(alloc),
        }
    }

    /// Counts a text `count` times. If `named`, the text is kept even if that is 0. Allocates only
    /// if it does not have the text, and returns `AllocError` if memory runs out.
    pub(crate) fn count(
        &mut self,
        alloc: Global,
        text: &[u8],
        count: u64,
        named: bool,
    ) -> Result<(), AllocError> {
        if count == 0 && !named {
            return Ok(());
        }
        if let Some(before) = self.counts.get_mut(text) {
            *before = before.saturating_add(count);
            return Ok(());
        }
        let text = Vec::from_slice(alloc, text)?;
        self.counts.insert(text, count)?;
        Ok(())
    }

    /// Returns the counts and their texts, the greatest count first, equal counts in the order of
    /// the bytes of the texts. Returns `AllocError` if memory runs out.
    pub(crate) fn into_rows(self, alloc: Global) -> Result<Vec<Row>, AllocError> {
        let mut rows = Vec::with_capacity(alloc, self.counts.len())?;
        for (text, count) in self.counts {
            rows.push((Reverse(count), text))?;
        }
        rows.sort_unstable();
        Ok(rows)
    }
}
