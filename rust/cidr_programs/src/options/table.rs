// Written by scripts/plain out of crates/options/src/table.rt

//! Tables of options.

/// The kind of an option: which values it takes.
///
/// ```
/// # use cidr_programs::in_examples::*;
/// use cidr_programs::options::table::Kind;
///
/// assert!(Kind::Alone != Kind::Flag);
/// ```
#[derive(Clone, Copy, Debug, PartialEq, Eq)]
pub enum Kind {
    /// No value.
    Flag,
    /// No value, and the option must be the only argument.
    Alone,
    /// The name of a file, which is not empty, or `-`, which stands for standard input.
    File,
    /// A text that is not empty.
    Text,
    /// Decimal digits, one or more.
    Number,
    /// The place of a field or word, as `Place::read` of `line_addresses` reads it.
    Field,
    /// A number from 1 to 4,294,967,295, `first` or `last`.
    Nth,
    /// One byte of ASCII other than LF, CR and NUL.
    Separator,
    /// `drop`, `keep`, `stop` or `report`.
    Rule,
    /// `csv`, `ipset` or `nft`, a form of lists.
    Form,
    /// Two prefix lengths with a comma between them: the first is at most 32, the second at most
    /// 128.
    Lengths,
}

impl Kind {
    /// Whether an option of this kind takes a value.
    ///
    /// ```
    /// # use cidr_programs::in_examples::*;
    /// use cidr_programs::options::table::Kind;
    ///
    /// assert!(Kind::File.takes_value());
    /// assert!(!Kind::Alone.takes_value());
    /// ```
    pub fn takes_value(self) -> bool {
        match self {
            Kind::Flag | Kind::Alone => false,
            _ => true,
        }
    }
}

/// An option.
///
/// ```
/// # use cidr_programs::in_examples::*;
/// use cidr_programs::options::table::{Kind, Row};
///
/// let quiet = Row {
///     letter: Some(b'q'),
///     name: "--quiet",
///     kind: Kind::Flag,
///     joins: false,
///     problem: "",
/// };
/// assert!(!quiet.kind.takes_value());
/// ```
#[derive(Clone, Copy, Debug)]
pub struct Row {
    /// The letter of the option, if it has one.
    pub letter: Option<u8>,
    /// The long name, with its two dashes, or an empty text if it has none.
    pub name: &'static str,
    /// Which values it takes.
    pub kind: Kind,
    /// Whether a value may follow the long name after `=`.
    pub joins: bool,
    /// What is reported about a wrong value.
    pub problem: &'static str,
}

/// Two options that do not go together, by the indices of their rows. A pair of an option with
/// itself says that it may be given only once.
///
/// ```
/// # use cidr_programs::in_examples::*;
/// use cidr_programs::options::table::{Pair, pair};
///
/// let twice: Pair = pair!(6, 6, "-f is given more than once");
/// assert_eq!(twice.first, twice.second);
/// ```
#[derive(Clone, Copy, Debug)]
pub struct Pair {
    /// The row of the first option.
    pub first: usize,
    /// The row of the second option.
    pub second: usize,
    /// What is reported if both are given.
    pub problem: &'static str,
}

/// The options of a program, and the rules for using them.
///
/// ```
/// # use cidr_programs::in_examples::*;
/// use cidr_programs::options::table::{Kind, Row, Table, letter};
///
/// let rows = [letter!(b'f', File, "not a file name")];
/// let table = Table { rows: &rows, pairs: &[], needs: &[0], lacking: "-f is not given" };
/// assert_eq!(table.rows[table.needs[0]].letter, Some(b'f'));
/// ```
#[derive(Clone, Copy, Debug)]
pub struct Table<'a> {
    /// The options, one in each row.
    pub rows: &'a [Row],
    /// The pairs of options that do not go together. If several pairs are given, the first is
    /// reported.
    pub pairs: &'a [Pair],
    /// The rows of the options of which at least one is needed. `operands_fault` needs a FILE
    /// instead.
    pub needs: &'a [usize],
    /// What is reported if none of them is given, or, by `operands_fault`, no FILE.
    pub lacking: &'static str,
}

/// Returns the kind of the row at this index, or `Kind::Flag` if there is no such row.
///
/// ```
/// # use cidr_programs::in_examples::*;
/// use cidr_programs::options::table::{Kind, Row, kind_at, letter};
///
/// assert_eq!(kind_at(&[letter!(b'v', Flag, "")], 0), Kind::Flag);
/// ```
pub fn kind_at(rows: &[Row], row: usize) -> Kind {
    match rows.get(row) {
        Some(row) => row.kind,
        None => Kind::Flag,
    }
}

// Whether this is the letter of the row's option.
fn has_letter(row: &Row, letter: u8) -> bool {
    match row.letter {
        Some(one) => one == letter,
        None => false,
    }
}

/// Returns the index of the first row with this letter.
pub(crate) fn lettered(rows: &[Row], letter: u8) -> Option<usize> {
    rows.iter().position(|row| has_letter(row, letter))
}

/// Returns the index of the first row with this long name.
///
/// ```
/// # use cidr_programs::in_examples::*;
/// use cidr_programs::options::table::{Kind, Row, long, named};
///
/// assert_eq!(named(&[long!("--bad", Rule, true, "")], "--bad"), Some(0));
/// ```
pub fn named(rows: &[Row], name: &str) -> Option<usize> {
    rows.iter().position(|row| row.name == name)
}

/// Returns the index of the first row with this long name whose value may follow the name after
/// `=`.
pub(crate) fn joined(rows: &[Row], name: &str) -> Option<usize> {
    rows.iter().position(|row| row.joins && row.name == name)
}

/// Creates the row of an option that has a letter, from the letter, the kind, and what is reported
/// about a wrong value.
///
/// ```
/// # use cidr_programs::in_examples::*;
/// use cidr_programs::options::table::{Kind, Row, letter};
///
/// const FIELD: Row = letter!(b'k', Field, "not a field number");
/// assert_eq!(FIELD.letter, Some(b'k'));
/// ```
#[macro_export]
macro_rules! letter {
    ($letter:expr, $kind:ident, $problem:expr) => {
        Row {
            letter: Some($letter),
            name: "",
            kind: Kind::$kind,
            joins: false,
            problem: $problem,
        }
    };
}

/// Creates the row of an option that has a long name, from the name, the kind, whether a value may
/// follow the name after `=`, and what is reported about a wrong value.
///
/// ```
/// # use cidr_programs::in_examples::*;
/// use cidr_programs::options::table::{Kind, Row, long};
///
/// const RULE: Row = long!("--bad", Rule, true, "not drop, keep, stop or report");
/// assert!(RULE.joins);
/// ```
#[macro_export]
macro_rules! long {
    ($name:expr, $kind:ident, $joins:expr, $problem:expr) => {
        Row {
            letter: None,
            name: $name,
            kind: Kind::$kind,
            joins: $joins,
            problem: $problem,
        }
    };
}

/// Creates a pair of options that do not go together, from the indices of their rows and what is
/// reported if both are given.
///
/// ```
/// # use cidr_programs::in_examples::*;
/// use cidr_programs::options::table::{Pair, pair};
///
/// const WORDS_OR_SEPARATOR: Pair = pair!(1, 3, "-w does not go with -d");
/// assert_eq!(WORDS_OR_SEPARATOR.second, 3);
/// ```
#[macro_export]
macro_rules! pair {
    ($first:expr, $second:expr, $problem:expr) => {
        Pair {
            first: $first,
            second: $second,
            problem: $problem,
        }
    };
}

pub use letter;
pub use long;
pub use pair;
