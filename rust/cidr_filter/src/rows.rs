// Written by scripts/plain out of crates/cidr_filter/src/rows.rt

//! The options of the command line.

use cidr_programs::log_programs::rows::{
    AFTER, ANYWHERE, FIELD, LIST, NTH, SEPARATOR, WORDS, log_pairs, log_rows,
};
use cidr_programs::options::table::{Kind, Pair, Row, Table, letter, long, pair};

/// The row of `-e`.
pub(crate) const TEXT: usize = 10;

/// The row of `-m`.
pub(crate) const MOST: usize = 11;

/// The row of `--longest`.
pub(crate) const LONGEST: usize = 12;

/// The row of `--bad`.
pub(crate) const BAD: usize = 13;

/// The row of `-v`.
pub(crate) const INVERTS: usize = 14;

/// The row of `-c`.
pub(crate) const COUNTS: usize = 15;

/// The row of `-o`.
pub(crate) const ONLY: usize = 16;

/// The row of `-H`.
pub(crate) const NAMED: usize = 17;

/// The row of `-h`.
pub(crate) const UNNAMED: usize = 18;

/// The row of `-n`.
pub(crate) const NUMBERED: usize = 19;

/// The row of `-l`.
pub(crate) const NAMES: usize = 20;

/// The row of `-q`.
pub(crate) const QUIET: usize = 21;

/// The row of `--skip-bad`.
pub(crate) const SKIPS_BAD: usize = 22;

/// The row of `--networks`.
pub(crate) const NETWORKS: usize = 23;

/// The row of `-4`.
pub(crate) const ONLY_V4: usize = 24;

/// The row of `-6`.
pub(crate) const ONLY_V6: usize = 25;

/// The row of `-Z`.
pub(crate) const NUL: usize = 26;

/// The row of `--strict`.
pub(crate) const STRICT: usize = 27;

/// The row of `--whole`.
pub(crate) const WHOLE: usize = 28;

/// The row of `--masks`.
pub(crate) const MASKS: usize = 29;

/// The row of `--read`.
pub(crate) const READ: usize = 30;

// The options.
const ROWS: [Row; 32] = log_rows![
    letter!(b'e', Text, "not a network or range"),
    letter!(b'm', Number, "not a number of lines"),
    long!("--longest", Flag, false, ""),
    long!("--bad", Rule, true, "not drop, keep, stop or report"),
    letter!(b'v', Flag, ""),
    letter!(b'c', Flag, ""),
    letter!(b'o', Flag, ""),
    letter!(b'H', Flag, ""),
    letter!(b'h', Flag, ""),
    letter!(b'n', Flag, ""),
    letter!(b'l', Flag, ""),
    letter!(b'q', Flag, ""),
    long!("--skip-bad", Flag, false, ""),
    long!("--networks", Flag, false, ""),
    letter!(b'4', Flag, ""),
    letter!(b'6', Flag, ""),
    letter!(b'Z', Flag, ""),
    long!("--strict", Flag, false, ""),
    long!("--whole", Flag, false, ""),
    long!("--masks", Flag, false, ""),
    long!("--read", Form, true, "not csv, ipset or nft"),
];

// The options that may not be given together.
const PAIRS: [Pair; 19] = log_pairs![
    [
        pair!(LONGEST, INVERTS, "--longest goes with neither -v nor -c"),
        pair!(LONGEST, COUNTS, "--longest goes with neither -v nor -c"),
    ],
    [
        pair!(ONLY, INVERTS, "-o goes with neither -v nor --longest"),
        pair!(ONLY, LONGEST, "-o goes with neither -v nor --longest"),
        pair!(NAMED, UNNAMED, "-H does not go with -h"),
        pair!(NETWORKS, LONGEST, "--networks does not go with --longest"),
        pair!(
            ONLY_V4,
            ONLY_V6,
            "-4 goes with none of -6, --nth and --after"
        ),
        pair!(ONLY_V4, NTH, "-4 goes with none of -6, --nth and --after"),
        pair!(ONLY_V4, AFTER, "-4 goes with none of -6, --nth and --after"),
        pair!(ONLY_V6, NTH, "-6 goes with none of -4, --nth and --after"),
        pair!(ONLY_V6, AFTER, "-6 goes with none of -4, --nth and --after"),
        pair!(READ, READ, "--read is given more than once"),
        pair!(READ, MASKS, "--read goes with neither --masks nor -e"),
        pair!(READ, TEXT, "--read goes with neither --masks nor -e"),
    ],
];

/// Returns the table of the options; it requires `-f` or `-e`.
pub(crate) fn table() -> Table<'static> {
    Table {
        rows: &ROWS,
        pairs: &PAIRS,
        needs: &[LIST, TEXT],
        lacking: "neither -f nor -e is given",
    }
}
