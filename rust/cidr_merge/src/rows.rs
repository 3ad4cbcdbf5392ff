// Written by scripts/plain out of crates/cidr_merge/src/rows.rt

//! The options of the command line, and which of them each task takes.

use crate::command_line::Operation;
use crate::tasks::Task;
use cidr_programs::options::table::{Kind, Pair, Row, Table, letter, long, pair};

/// The row of `--ranges`.
pub(crate) const RANGES: usize = 0;

/// The row of `--count`.
pub(crate) const COUNT: usize = 1;

/// The row of `--format`.
pub(crate) const FORMAT: usize = 2;

/// The row of `--skip-bad`.
pub(crate) const SKIP_BAD: usize = 3;

/// The row of `--json`.
pub(crate) const JSON: usize = 4;

/// The row of `--strict`.
pub(crate) const STRICT: usize = 5;

/// The row of `--set`.
pub(crate) const SET: usize = 6;

/// The row of `--table`.
pub(crate) const TABLE: usize = 7;

/// The row of `--line-prefix`.
pub(crate) const BEFORE: usize = 8;

/// The row of `--line-suffix`.
pub(crate) const AFTER: usize = 9;

/// The row of `--prefix`.
pub(crate) const PREFIX: usize = 10;

/// The row of `--from`.
pub(crate) const FROM: usize = 11;

/// The row of `-e`.
pub(crate) const TEXT: usize = 12;

/// The row of `--most`.
pub(crate) const MOST: usize = 13;

/// The row of `--maxelem`.
pub(crate) const MAXELEM: usize = 14;

/// The row of `--ipv4`.
pub(crate) const IPV4: usize = 15;

/// The row of `--ipv6`.
pub(crate) const IPV6: usize = 16;

/// The row of `--max-others`.
pub(crate) const MAX_OTHERS: usize = 17;

/// The row of `--allow-empty`.
pub(crate) const ALLOW_EMPTY: usize = 18;

/// The row of `--at-least`.
pub(crate) const AT_LEAST: usize = 19;

/// The row of `--max-change`.
pub(crate) const MAX_CHANGE: usize = 20;

/// The row of `--json-field`.
pub(crate) const JSON_FIELD: usize = 21;

/// The row of `--whole`.
pub(crate) const WHOLE: usize = 22;

/// The row of `--masks`.
pub(crate) const MASKS: usize = 23;

/// The row of `--all`.
pub(crate) const ALL: usize = 24;

/// The row of `-4`.
pub(crate) const ONLY_V4: usize = 25;

/// The row of `-6`.
pub(crate) const ONLY_V6: usize = 26;

/// The row of `--read`.
pub(crate) const READ: usize = 27;

/// The row of `--hosts`.
pub(crate) const HOSTS: usize = 28;

/// The row of `--usage`.
pub(crate) const USAGE: usize = 29;

// The options.
const ROWS: [Row; 33] = [
    long!("--ranges", Flag, false, ""),
    long!("--count", Flag, false, ""),
    long!(
        "--format",
        Text,
        true,
        "not a form; the forms are plain, range, netmask, wildcard, csv, nft, ipset, json and \
         addresses"
    ),
    long!("--skip-bad", Flag, false, ""),
    long!("--json", Flag, false, ""),
    long!("--strict", Flag, false, ""),
    long!("--set", Text, true, NO_NAME),
    long!("--table", Text, true, NO_NAME),
    long!("--line-prefix", Text, true, ""),
    long!("--line-suffix", Text, true, ""),
    long!("--prefix", Text, true, "not a prefix length, 0 to 128"),
    long!("--from", File, true, "not a file name"),
    letter!(b'e', Text, "not a network or range"),
    long!("--most", Number, true, NO_COUNT),
    long!(
        "--maxelem",
        Number,
        true,
        "not a number from 1 to 4294967295"
    ),
    long!("--ipv4", Number, true, NO_COUNT),
    long!("--ipv6", Number, true, NO_COUNT),
    long!("--max-others", Text, true, NO_BOUND),
    long!("--allow-empty", Flag, false, ""),
    long!("--at-least", Number, true, NO_COUNT),
    long!("--max-change", Text, true, NO_BOUND),
    long!("--json-field", Text, true, "not a name of a field"),
    long!("--whole", Flag, false, ""),
    long!("--masks", Flag, false, ""),
    long!("--all", Flag, false, ""),
    letter!(b'4', Flag, ""),
    letter!(b'6', Flag, ""),
    long!(
        "--read",
        Text,
        true,
        "not a form that is read; these are csv, ipset and nft"
    ),
    long!("--hosts", Text, true, NO_HOSTS),
    long!("--usage", Flag, false, ""),
    long!("--help", Alone, false, "not the only argument"),
    long!("--version", Alone, false, "not the only argument"),
    long!(
        "--quiet",
        Alone,
        false,
        "taken only once, as the first word"
    ),
];

// The message for a value of `--set` or `--table` that is not a name.
const NO_NAME: &str = "not a name of 1 to 22 letters, digits, _, - and ., the first a letter";

// The message for a value of `--most`, `--ipv4`, `--ipv6` or `--at-least` that is not a number
// from 1.
const NO_COUNT: &str = "not a number from 1";

// The message for a value of `--max-others` or `--max-change` that is not a bound.
const NO_BOUND: &str = "not a number, a number with a % after it, or any";

// The message for a value of `--hosts` that is not numbers of hosts.
const NO_HOSTS: &str = "not numbers from 1 of hosts, with a comma between them";

// The message for `--most` together with the number of a family.
const TWO_COUNTS: &str = "--most: not together with --ipv4 or --ipv6";

// The message for `--format` together with another option for the output form.
const ANOTHER_FORM: &str = "--format: given twice, or together with --ranges or --count";

// The pairs of options that exclude each other.
const PAIRS: [Pair; 40] = [
    pair!(RANGES, COUNT, "--ranges: not together with --count"),
    pair!(FORMAT, FORMAT, ANOTHER_FORM),
    pair!(FORMAT, RANGES, ANOTHER_FORM),
    pair!(FORMAT, COUNT, ANOTHER_FORM),
    pair!(PREFIX, PREFIX, "--prefix: given twice"),
    pair!(SET, SET, "--set: given twice"),
    pair!(TABLE, TABLE, "--table: given twice"),
    pair!(BEFORE, BEFORE, "--line-prefix: given twice"),
    pair!(AFTER, AFTER, "--line-suffix: given twice"),
    pair!(FROM, FROM, "--from: given twice"),
    pair!(MOST, MOST, "--most: given twice"),
    pair!(MAXELEM, MAXELEM, "--maxelem: given twice"),
    pair!(MOST, IPV4, TWO_COUNTS),
    pair!(MOST, IPV6, TWO_COUNTS),
    pair!(IPV4, IPV4, "--ipv4: given twice"),
    pair!(IPV6, IPV6, "--ipv6: given twice"),
    pair!(MAX_OTHERS, MAX_OTHERS, "--max-others: given twice"),
    pair!(AT_LEAST, AT_LEAST, "--at-least: given twice"),
    pair!(MAX_CHANGE, MAX_CHANGE, "--max-change: given twice"),
    pair!(
        ALLOW_EMPTY,
        AT_LEAST,
        "--allow-empty: not together with --at-least"
    ),
    pair!(JSON, WHOLE, "--whole: not together with --json"),
    pair!(JSON, MASKS, "--masks: not together with --json"),
    pair!(JSON_FIELD, WHOLE, "--whole: not together with --json-field"),
    pair!(JSON_FIELD, MASKS, "--masks: not together with --json-field"),
    pair!(ONLY_V4, ONLY_V4, "-4: given twice"),
    pair!(ONLY_V6, ONLY_V6, "-6: given twice"),
    pair!(ONLY_V4, ONLY_V6, "-4: not together with -6"),
    pair!(ONLY_V4, IPV6, "-4: not together with --ipv6"),
    pair!(ONLY_V6, IPV4, "-6: not together with --ipv4"),
    pair!(READ, READ, "--read: given twice"),
    pair!(JSON, READ, "--read: not together with --json"),
    pair!(JSON_FIELD, READ, "--read: not together with --json-field"),
    pair!(MASKS, READ, "--read: not together with --masks"),
    pair!(TEXT, READ, "--read: not together with -e"),
    pair!(HOSTS, HOSTS, "--hosts: given twice"),
    pair!(HOSTS, PREFIX, "--hosts: not together with --prefix"),
    pair!(HOSTS, ALL, "--hosts: not together with --all"),
    pair!(HOSTS, USAGE, "--hosts: not together with --usage"),
    pair!(USAGE, PREFIX, "--usage: not together with --prefix"),
    pair!(USAGE, ALL, "--usage: not together with --all"),
];

/// The options.
pub(crate) fn table() -> Table<'static> {
    Table {
        rows: &ROWS,
        pairs: &PAIRS,
        needs: &[],
        lacking: "",
    }
}

// The options of a merge, a `differ`, a `split`, a `reduce`, a `check` and a `free`, by the indices
// of their rows.
const OF_MERGES: [usize; 20] = [
    TEXT,
    RANGES,
    COUNT,
    FORMAT,
    SET,
    TABLE,
    MAXELEM,
    BEFORE,
    AFTER,
    SKIP_BAD,
    JSON,
    JSON_FIELD,
    STRICT,
    WHOLE,
    MASKS,
    READ,
    ALLOW_EMPTY,
    AT_LEAST,
    ONLY_V4,
    ONLY_V6,
];

const OF_DIFFER: [usize; 21] = [
    TEXT,
    RANGES,
    COUNT,
    FORMAT,
    SET,
    TABLE,
    MAXELEM,
    BEFORE,
    AFTER,
    SKIP_BAD,
    JSON,
    JSON_FIELD,
    STRICT,
    WHOLE,
    MASKS,
    READ,
    ALLOW_EMPTY,
    AT_LEAST,
    MAX_CHANGE,
    ONLY_V4,
    ONLY_V6,
];

const OF_SPLIT: [usize; 14] = [
    TEXT, PREFIX, BEFORE, AFTER, SKIP_BAD, JSON, JSON_FIELD, STRICT, WHOLE, MASKS, READ, AT_LEAST,
    ONLY_V4, ONLY_V6,
];

const OF_REDUCE: [usize; 24] = [
    TEXT,
    RANGES,
    COUNT,
    FORMAT,
    SET,
    TABLE,
    MAXELEM,
    BEFORE,
    AFTER,
    SKIP_BAD,
    JSON,
    JSON_FIELD,
    STRICT,
    WHOLE,
    MASKS,
    READ,
    ALLOW_EMPTY,
    AT_LEAST,
    MOST,
    IPV4,
    IPV6,
    MAX_OTHERS,
    ONLY_V4,
    ONLY_V6,
];

const OF_CHECK: [usize; 5] = [TEXT, STRICT, WHOLE, MASKS, READ];

const OF_FREE: [usize; 17] = [
    TEXT,
    PREFIX,
    ALL,
    HOSTS,
    USAGE,
    BEFORE,
    AFTER,
    SKIP_BAD,
    JSON,
    JSON_FIELD,
    STRICT,
    WHOLE,
    MASKS,
    READ,
    ALLOW_EMPTY,
    ONLY_V4,
    ONLY_V6,
];

/// The options that a task takes, by the indices of their rows.
pub(crate) fn taken(task: Task) -> &'static [usize] {
    match task {
        Task::Merge(Operation::Differ) => &OF_DIFFER,
        Task::Merge(_) | Task::List => &OF_MERGES,
        Task::Split => &OF_SPLIT,
        Task::Reduce => &OF_REDUCE,
        Task::Check => &OF_CHECK,
        Task::Overlaps => &[TEXT, STRICT, WHOLE, MASKS, READ],
        Task::Find => &[TEXT, FROM, STRICT, WHOLE, MASKS, READ],
        Task::Free => &OF_FREE,
    }
}
