// Written by scripts/plain out of crates/cidr_join/src/rows.rt

//! The options of the command line.

use cidr_programs::log_programs::rows::{
    AFTER, ANYWHERE, FIELD, LIST, SEPARATOR, WORDS, log_pairs, log_rows,
};
use cidr_programs::options::table::{Kind, Pair, Row, Table, letter, long, pair};

/// The row of `--last`.
pub(crate) const LAST: usize = 10;

/// The row of `--last-wins`.
pub(crate) const LAST_WINS: usize = 11;

/// The row of `--network`.
pub(crate) const NETWORK: usize = 12;

/// The row of `--tally`.
pub(crate) const TALLY: usize = 13;

/// The row of `--group`.
pub(crate) const GROUP: usize = 14;

/// The row of `--bad`.
pub(crate) const BAD: usize = 15;

/// The row of `--zero`.
pub(crate) const ZERO: usize = 16;

/// The row of `--skip-bad`.
pub(crate) const SKIPS_BAD: usize = 17;

/// The row of `--networks`.
pub(crate) const NETWORKS: usize = 18;

/// The row of `--ranges`.
pub(crate) const RANGES: usize = 19;

/// The row of `--strict`.
pub(crate) const STRICT: usize = 20;

/// The row of `--whole`.
pub(crate) const WHOLE: usize = 21;

// The options.
const ROWS: [Row; 23] = log_rows![
    long!("--last", Flag, false, ""),
    long!("--last-wins", Flag, false, ""),
    long!("--network", Flag, false, ""),
    long!("--tally", Flag, false, ""),
    long!(
        "--group",
        Lengths,
        true,
        "not N,M with N up to 32 and M up to 128"
    ),
    long!("--bad", Rule, true, "not drop, keep, stop or report"),
    long!("--zero", Flag, false, ""),
    long!("--skip-bad", Flag, false, ""),
    long!("--networks", Flag, false, ""),
    long!("--ranges", Flag, false, ""),
    long!("--strict", Flag, false, ""),
    long!("--whole", Flag, false, ""),
];

// What is reported about `--group` with an option about a list.
const GROUP_ALONE: &str =
    "--group goes with none of -f, --network, --last-wins, --ranges, --skip-bad, --strict, \
     --whole and --zero";

// The options that may not be given together.
const PAIRS: [Pair; 14] = log_pairs![
    [],
    [
        pair!(TALLY, LAST, "--last does not go with --tally"),
        pair!(GROUP, LIST, GROUP_ALONE),
        pair!(GROUP, NETWORK, GROUP_ALONE),
        pair!(GROUP, LAST_WINS, GROUP_ALONE),
        pair!(GROUP, ZERO, GROUP_ALONE),
        pair!(GROUP, RANGES, GROUP_ALONE),
        pair!(GROUP, SKIPS_BAD, GROUP_ALONE),
        pair!(GROUP, STRICT, GROUP_ALONE),
        pair!(GROUP, WHOLE, GROUP_ALONE),
    ],
];

/// Returns the table of the options; it requires `-f` or `--group`.
pub(crate) fn table() -> Table<'static> {
    Table {
        rows: &ROWS,
        pairs: &PAIRS,
        needs: &[LIST, GROUP],
        lacking: "neither -f nor --group is given",
    }
}
