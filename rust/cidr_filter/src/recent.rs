// Written by scripts/plain out of crates/cidr_filter/src/recent.rt

//! Whether many of the last lines were selected.

/// How many of the last lines were selected, updated after every 64th line.
#[derive(Clone, Copy, Debug, PartialEq, Eq)]
pub(crate) struct Recent {
    /// Whether at least 16 of the last 64 lines were selected. If fewer were, the processor
    /// predicts most lines right, and copying each would cost more than its wrong predictions.
    pub(crate) are_many: bool,
    // How many lines of all logs had been selected at the last update.
    selected: u64,
}

impl Recent {
    /// Creates the state before the first line of a log; `selected` lines were selected before it.
    pub(crate) fn new(selected: u64) -> Recent {
        Recent {
            are_many: false,
            selected,
        }
    }

    /// Updates the state after a line, if it is a 64th one. `lines` of the log were filtered, and
    /// `selected` lines of all logs were selected.
    #[inline(always)]
    pub(crate) fn note(&mut self, lines: u64, selected: u64) {
        if lines % 64 == 0 {
            self.look(selected);
        }
    }

    // Not inlined, so that it costs nothing at other lines.
    #[inline(never)]
    fn look(&mut self, selected: u64) {
        self.are_many = selected.saturating_sub(self.selected) >= 16;
        self.selected = selected;
    }
}
