// Written by scripts/plain out of crates/cidr_info/src/rows.rt

//! The options of the command line.

use cidr_programs::options::table::{Kind, Pair, Row, Table, long, pair};

/// The index of the row of `--in`.
pub(crate) const IN: usize = 0;

/// The index of the row of `--json`.
pub(crate) const JSON: usize = 1;

/// The index of the row of `--zones`.
pub(crate) const ZONES: usize = 2;

/// What is reported about a value of `--in` that names no network.
pub(crate) const NO_NETWORK: &str = "not a network";

// The rows of the options.
const ROWS: [Row; 6] = [
    long!("--in", Text, true, NO_NETWORK),
    long!("--json", Flag, false, ""),
    long!("--zones", Flag, false, ""),
    long!("--help", Alone, false, "not the only argument"),
    long!("--version", Alone, false, "not the only argument"),
    long!(
        "--quiet",
        Alone,
        false,
        "taken only once, as the first word"
    ),
];

// `--in` may be given only once, and no two of the three options go together.
const PAIRS: [Pair; 4] = [
    pair!(IN, IN, "--in is given more than once"),
    pair!(IN, JSON, "--in does not go with --json"),
    pair!(IN, ZONES, "--in does not go with --zones"),
    pair!(JSON, ZONES, "--json does not go with --zones"),
];

/// Returns the table of the options, none of which is required.
pub(crate) fn table() -> Table<'static> {
    Table {
        rows: &ROWS,
        pairs: &PAIRS,
        needs: &[],
        lacking: "no NETWORK is given; - is standard input",
    }
}
