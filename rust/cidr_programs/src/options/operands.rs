// Written by scripts/plain out of crates/options/src/operands.rt

//! Finds what is wrong with a command line that needs a FILE and no option; and whether words that
//! are not UTF-8 are FILEs.

use fosibegan_core::plain_std::string::String;
use crate::options::faults::{
    Fault, Subject, about, first_fault, has_file, is_read_once, pair_fault,
};
use crate::options::items::{Item, Mode};
use crate::options::reading::items_of;
use crate::options::table::{Row, Table};
use crate::program::arguments::is_stand_in;
use fosibegan_core::plain_std::alloc::Global;

/// Returns the first fault of a command line that needs a FILE and no option, or `None` if it has
/// none. A FILE may be empty.
///
/// Faults are looked for in this order:
///
/// 1. an option that does not exist, has a wrong value or lacks its value;
/// 2. a pair of options that do not go together;
/// 3. that there is no FILE;
/// 4. that standard input is read twice.
///
/// ```
/// # use cidr_programs::in_examples::*;
/// use cidr_programs::options::items::{Item, Text};
/// use cidr_programs::options::operands::operands_fault;
/// use cidr_programs::options::table::Table;
///
/// let table = Table { rows: &[], pairs: &[], needs: &[], lacking: "no NETWORK is given" };
/// assert!(operands_fault(&table, &[Item::File(Text::new("10.0.0.1"))]).is_none());
/// let nothing = operands_fault(&table, &[]);
/// assert!(nothing.is_some_and(|fault| fault.problem.as_str() == "no NETWORK is given"));
/// ```
pub fn operands_fault<'a>(table: &Table<'_>, items: &[Item<'a>]) -> Option<Fault<'a>> {
    if let Some(fault) = first_fault(table.rows, false, items) {
        return Some(fault);
    }
    if let Some(fault) = pair_fault(items, table.pairs) {
        return Some(fault);
    }
    if !has_file(items) {
        return Some(about(Subject::CommandLine, table.lacking));
    }
    if is_read_once(table.rows, items) {
        return None;
    }
    Some(about(
        Subject::CommandLine,
        "-: standard input can be read only once",
    ))
}

/// Returns whether each word that stands for one that is not UTF-8 is a FILE, and the word that it
/// stands for does not begin with `-`. So no option and no value is such a word. It is false if
/// memory runs out.
///
/// ```
/// # use cidr_programs::in_examples::*;
/// # ended(|| {
/// use cidr_programs::options::operands::are_files;
/// use cidr_programs::options::table::{Kind, Row, letter};
///
/// let rows = [letter!(b'f', File, "not a file name")];
/// let words = [String::from_str(Global, "-f")?, String::from_str(Global, "\0a\\xff")?];
/// assert!(are_files(Global, &rows, &words[1..]));
/// assert!(!are_files(Global, &rows, &words));
/// # Ok(())
/// # });
/// ```
pub fn are_files(alloc: Global, rows: &[Row], words: &[String]) -> bool {
    match items_of(alloc, rows, words) {
        Ok(items) => are_taken(items.as_slice()),
        Err(_) => false,
    }
}

// Whether each item is taken.
fn are_taken(items: &[Item<'_>]) -> bool {
    let mut at = 0;
    while at < items.len() {
        if !is_taken(&items[at]) {
            return false;
        }
        at += 1;
    }
    true
}

// Whether an item of a command line is no word that stands for one that is not UTF-8, unless as a
// FILE that does not begin with `-`.
fn is_taken(item: &Item<'_>) -> bool {
    match item {
        Item::File(name) => !stands_for_dash(name.as_str()),
        Item::Value(_, value) | Item::Joined(_, value, _) => !is_stand_in(value.as_str()),
        Item::Flag(_) | Item::Unknown(_) | Item::Lacks(_) => true,
    }
}

// Whether a word stands for one that is not UTF-8 and begins with `-`.
fn stands_for_dash(word: &str) -> bool {
    word.as_bytes().starts_with(b"\0-".as_slice())
}
