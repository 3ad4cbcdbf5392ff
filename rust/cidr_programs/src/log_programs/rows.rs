// Written by scripts/plain out of crates/log_programs/src/rows.rt

//! The rows of the options that all programs for logs share.

use crate::options::table::{Kind, Pair, Row, Table, letter, long, pair};

/// The row of `-a`.
pub const ANYWHERE: usize = 0;

/// The row of `-w`.
pub const WORDS: usize = 1;

/// The row of `-k`.
pub const FIELD: usize = 2;

/// The row of `-d`.
pub const SEPARATOR: usize = 3;

/// The row of `--after`.
pub const AFTER: usize = 4;

/// The row of `--mapped`.
pub const MAPPED: usize = 5;

/// The row of `-f`.
pub const LIST: usize = 6;

/// The row of `--nth`.
pub const NTH: usize = 9;

/// The rows of the shared options, with `--help` and `--version`, then those of a program, and last
/// that of `--quiet`, which is taken off before the options are read if it is the first word.
///
/// ```
/// # use cidr_programs::in_examples::*;
/// use cidr_programs::log_programs::rows::{LIST, log_rows};
/// use cidr_programs::options::table::{Kind, Row, letter, long};
///
/// const ROWS: [Row; 12] = log_rows![letter!(b'q', Flag, "")];
/// assert_eq!(ROWS[LIST].letter, Some(b'f'));
/// assert_eq!(ROWS[10].letter, Some(b'q'));
/// ```
#[macro_export]
macro_rules! log_rows {
    ($($row:expr),* $(,)?) => {
        [
            letter!(b'a', Flag, ""),
            letter!(b'w', Flag, ""),
            letter!(b'k', Field, "not a field number"),
            letter!(b'd', Separator, "not one ASCII byte other than LF, CR and NUL"),
            long!("--after", Text, true, "empty"),
            long!("--mapped", Flag, false, ""),
            letter!(b'f', File, "not a file name"),
            long!("--help", Alone, false, "not the only argument"),
            long!("--version", Alone, false, "not the only argument"),
            long!("--nth", Nth, true, "not first, last or a number from 1 up"),
            $($row,)*
            long!("--quiet", Alone, false, "taken only once, as the first word"),
        ]
    };
}

/// The pairs of shared options that exclude each other, after the first pairs of a program and
/// before its last.
///
/// ```
/// # use cidr_programs::in_examples::*;
/// use cidr_programs::log_programs::rows::{AFTER, ANYWHERE, FIELD, MAPPED, SEPARATOR, WORDS, log_pairs};
/// use cidr_programs::options::table::{Pair, pair};
///
/// const PAIRS: [Pair; 6] = log_pairs![[pair!(MAPPED, WORDS, "--mapped does not go with -w")], []];
/// assert_eq!(PAIRS[5].problem, "-w does not go with -d");
/// ```
#[macro_export]
macro_rules! log_pairs {
    ([$($first:expr),* $(,)?], [$($last:expr),* $(,)?] $(,)?) => {
        [
            $($first,)*
            pair!(AFTER, ANYWHERE, "--after goes with none of -a, -k, -d and -w"),
            pair!(AFTER, WORDS, "--after goes with none of -a, -k, -d and -w"),
            pair!(AFTER, FIELD, "--after goes with none of -a, -k, -d and -w"),
            pair!(AFTER, SEPARATOR, "--after goes with none of -a, -k, -d and -w"),
            pair!(WORDS, SEPARATOR, "-w does not go with -d"),
            $($last),*
        ]
    };
}

pub use log_pairs;
pub use log_rows;

// The rows of the shared options.
const ROWS: [Row; 11] = log_rows![];

// The pairs of them that exclude each other.
const PAIRS: [Pair; 5] = log_pairs![[], []];

/// Returns the table of only the shared options, none of which is required.
///
/// ```
/// # use cidr_programs::in_examples::*;
/// use cidr_programs::options::faults::fault_of;
/// use cidr_programs::options::items::{Item, Text};
///
/// let table = cidr_programs::log_programs::rows::shared();
/// let words_and_separator = [Item::Flag(1), Item::Value(3, Text::new(","))];
/// let fault = fault_of(&table, &words_and_separator);
/// assert!(fault.is_some_and(|fault| fault.problem.as_str() == "-w does not go with -d"));
/// ```
pub fn shared() -> Table<'static> {
    Table {
        rows: &ROWS,
        pairs: &PAIRS,
        needs: &[],
        lacking: "",
    }
}
