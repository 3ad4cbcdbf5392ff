// Written by scripts/plain out of crates/options/src/faults.rt

//! Finds what is wrong with a command line.

use crate::options::given::{is_given, times};
use crate::options::items::{Item, Text};
use crate::options::table::{Kind, Pair, Row, Table, kind_at};
use crate::options::values::is_right;

/// What a fault is about: the command line, one of its words, an option or a value.
///
/// ```
/// # use cidr_programs::in_examples::*;
/// use cidr_programs::options::faults::Subject;
///
/// let subject = Subject::Option(7);
/// assert!(matches!(subject, Subject::Option(7)));
/// ```
#[derive(Debug)]
pub enum Subject<'a> {
    /// The command line as a whole.
    CommandLine,
    /// A word of the command line.
    Word(Text<'a>),
    /// The option of the row at this index.
    Option(usize),
    /// The value of the option of the row at this index.
    Value(usize, Text<'a>),
}

/// A fault of a command line.
///
/// ```
/// # use cidr_programs::in_examples::*;
/// use cidr_programs::options::faults::{Fault, Subject};
/// use cidr_programs::options::items::Text;
///
/// let fault = Fault {
///     subject: Subject::Word(Text::new("-x")),
///     problem: Text::new("unknown option"),
/// };
/// assert_eq!(fault.problem.as_str(), "unknown option");
/// ```
#[derive(Debug)]
pub struct Fault<'a> {
    /// What the fault is about.
    pub subject: Subject<'a>,
    /// What is wrong with it.
    pub problem: Text<'a>,
}

/// Creates a fault of this subject, with this problem.
///
/// ```
/// # use cidr_programs::in_examples::*;
/// use cidr_programs::options::faults::{Subject, about};
///
/// assert_eq!(about(Subject::CommandLine, "no FILE").problem.as_str(), "no FILE");
/// ```
pub fn about<'a>(subject: Subject<'a>, problem: &'a str) -> Fault<'a> {
    let problem = Text::new(problem);
    Fault { subject, problem }
}

/// Returns what is reported about a wrong value of the option of the row at this index, or an empty
/// text if there is no such row.
///
/// ```
/// # use cidr_programs::in_examples::*;
/// use cidr_programs::options::faults::problem_at;
/// use cidr_programs::options::table::{Kind, Row, letter};
///
/// assert_eq!(problem_at(&[letter!(b'k', Field, "not a field number")], 0), "not a field number");
/// ```
pub fn problem_at(rows: &[Row], row: usize) -> &'static str {
    match rows.get(row) {
        Some(row) => row.problem,
        None => "",
    }
}

// Returns the fault of an option of this row whose value is not one of the row's kind.
fn value_fault<'a>(rows: &[Row], row: usize, value: &str, subject: Subject<'a>) -> Option<Fault<'a>> {
    if is_right(kind_at(rows, row), value) {
        None
    } else {
        Some(about(subject, problem_at(rows, row)))
    }
}

// Returns what is wrong with an option.
fn option_fault<'a>(rows: &[Row], item: &Item<'a>) -> Option<Fault<'a>> {
    match item {
        Item::Flag(row) => value_fault(rows, *row, "", Subject::Option(*row)),
        Item::Value(row, value) => {
            let subject = Subject::Value(*row, Text::new(value.as_str()));
            value_fault(rows, *row, value.as_str(), subject)
        }
        Item::Joined(row, value, word) => {
            let subject = Subject::Word(Text::new(word.as_str()));
            value_fault(rows, *row, value.as_str(), subject)
        }
        Item::File(_) => None,
        Item::Unknown(word) => {
            let subject = Subject::Word(Text::new(word.as_str()));
            Some(about(subject, "unknown option"))
        }
        Item::Lacks(row) => Some(about(Subject::Option(*row), "has no value")),
    }
}

// Returns what is wrong with a FILE.
fn name_fault<'a>(item: &Item<'a>) -> Option<Fault<'a>> {
    match item {
        Item::File(name) => {
            if !name.as_str().is_empty() {
                return None;
            }
            let subject = Subject::Word(Text::new(name.as_str()));
            Some(about(subject, "not a file name"))
        }
        _ => None,
    }
}

// Returns what is wrong with an item: as a FILE if `of_files`, and else as an option.
fn item_fault<'a>(rows: &[Row], of_files: bool, item: &Item<'a>) -> Option<Fault<'a>> {
    if of_files {
        name_fault(item)
    } else {
        option_fault(rows, item)
    }
}

// Returns the first fault of the FILEs if `of_files`, and else of the options.
pub(crate) fn first_fault<'a>(rows: &[Row], of_files: bool, items: &[Item<'a>]) -> Option<Fault<'a>> {
    let mut at = 0;
    while at < items.len() {
        if let Some(fault) = item_fault(rows, of_files, &items[at]) {
            return Some(fault);
        }
        at += 1;
    }
    None
}

// Whether the options of a pair are both given, or its one option more than once.
fn are_both(items: &[Item<'_>], pair: &Pair) -> bool {
    if pair.first == pair.second {
        times(items, pair.first) > 1
    } else {
        is_given(items, pair.first) && is_given(items, pair.second)
    }
}

// Returns the first pair whose options are both given.
fn given_pair<'a>(items: &[Item<'_>], pairs: &'a [Pair]) -> Option<&'a Pair> {
    pairs.iter().find(|pair| are_both(items, pair))
}

/// Returns the fault of the first pair whose options are both given, or whose one option is given
/// more than once.
///
/// ```
/// # use cidr_programs::in_examples::*;
/// use cidr_programs::options::faults::pair_fault;
/// use cidr_programs::options::items::Item;
/// use cidr_programs::options::table::{Pair, pair};
///
/// let items = [Item::Flag(1), Item::Flag(1)];
/// assert!(pair_fault(&items, &[pair!(1, 1, "-f is given twice")]).is_some());
/// ```
pub fn pair_fault<'a>(items: &[Item<'_>], pairs: &[Pair]) -> Option<Fault<'a>> {
    match given_pair(items, pairs) {
        Some(pair) => Some(about(Subject::CommandLine, pair.problem)),
        None => None,
    }
}

// Whether one of these options is given.
fn is_one_given(items: &[Item<'_>], needs: &[usize]) -> bool {
    needs.iter().any(|row| is_given(items, *row))
}

// Whether the item names standard input.
fn is_input(rows: &[Row], item: &Item<'_>) -> bool {
    match item {
        Item::File(name) => name.as_str() == "-",
        Item::Value(row, text) | Item::Joined(row, text, _) => kind_at(rows, *row) == Kind::File
            && text.as_str() == "-",
        Item::Flag(_) | Item::Unknown(_) | Item::Lacks(_) => false,
    }
}

// Whether there is a FILE.
pub(crate) fn has_file(items: &[Item<'_>]) -> bool {
    items.iter().any(|item| matches!(item, Item::File(_)))
}

// Whether standard input is read at most once. It is also read if there is no FILE.
pub(crate) fn is_read_once(rows: &[Row], items: &[Item<'_>]) -> bool {
    let inputs = items.iter().filter(|item| is_input(rows, item)).count();
    if has_file(items) {
        inputs <= 1
    } else {
        inputs == 0
    }
}

/// Returns the first fault of a command line that says these items, or `None` if it has none.
///
/// Faults are looked for in this order:
///
/// 1. an option that does not exist, has a wrong value or lacks its value;
/// 2. a FILE with an empty name;
/// 3. a pair of options that do not go together;
/// 4. that no option is given of those of which one is needed;
/// 5. that standard input is read twice.
///
/// ```
/// # use cidr_programs::in_examples::*;
/// use cidr_programs::options::faults::fault_of;
/// use cidr_programs::options::items::{Item, Text};
/// use cidr_programs::options::table::{Kind, Row, Table, letter};
///
/// let rows = [letter!(b'k', Field, "not a field number")];
/// let table = Table { rows: &rows, pairs: &[], needs: &[0], lacking: "-k is not given" };
/// let zero = fault_of(&table, &[Item::Value(0, Text::new("0"))]);
/// assert!(zero.is_some_and(|fault| fault.problem.as_str() == "not a field number"));
/// let nothing = fault_of(&table, &[]);
/// assert!(nothing.is_some_and(|fault| fault.problem.as_str() == "-k is not given"));
/// ```
pub fn fault_of<'a>(table: &Table<'_>, items: &[Item<'a>]) -> Option<Fault<'a>> {
    if let Some(fault) = first_fault(table.rows, false, items) {
        return Some(fault);
    }
    if let Some(fault) = first_fault(table.rows, true, items) {
        return Some(fault);
    }
    if let Some(fault) = pair_fault(items, table.pairs) {
        return Some(fault);
    }
    if !is_one_given(items, table.needs) {
        return Some(about(Subject::CommandLine, table.lacking));
    }
    if is_read_once(table.rows, items) {
        return None;
    }
    Some(about(
        Subject::CommandLine,
        "-: standard input can be read only once",
    ))
}
