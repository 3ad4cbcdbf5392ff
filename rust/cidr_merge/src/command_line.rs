// Written by scripts/plain out of crates/cidr_merge/src/command_line.rt

//! What the words of a command line ask for.

use fosibegan_core::plain_std::vec::Vec;
use fosibegan_core::plain_std::string::String;
use crate::bounds::{Bound, bound_in};
use crate::dashes::{before_dashes, behind_dashes};
use crate::exports::Export;
use crate::faults::{fault_of, from_count, no_task_fault};
use crate::free_task::{FreeTask, free_task_of};
use crate::named_lists::{add_file, lists_of};
use crate::rows::{
    ALL, ALLOW_EMPTY, AT_LEAST, COUNT, FORMAT, FROM, IPV4, IPV6, JSON, JSON_FIELD, MASKS,
    MAX_CHANGE, MAX_OTHERS, MOST, PREFIX, RANGES, READ, SKIP_BAD, STRICT, WHOLE, table,
};
use crate::set_names::{SetNames, names_of};
use crate::shapes::{Shape, line_form_called};
use crate::tasks::{Task, task_called};
use cidr_programs::lists::{LineForm, Rules};
use cidr_programs::options::faults::{Fault, Subject, about};
use cidr_programs::options::given::{is_given, value_of};
use cidr_programs::options::items::Item;
use cidr_programs::options::reading::items_of;
use cidr_programs::options::table::Table;
use cidr_programs::options::values::{length_in, number_in};
use cidr_programs::program::command_line::count_of;
use fosibegan_core::plain_std::alloc::{AllocError, Global};

/// What is done with the lists.
#[derive(Clone, Copy, Debug, PartialEq, Eq)]
pub enum Operation {
    /// The addresses that are in any of the lists.
    Union,
    /// The addresses that are in both sides.
    Common,
    /// The addresses that are in the first side and not in the second.
    Minus,
    /// The addresses that are in one side and not in the other.
    Differ,
}

/// The form in which the result is printed.
#[derive(Clone, Copy, Debug, PartialEq, Eq)]
pub enum Form {
    /// The blocks of the least list.
    Blocks,
    /// The first and the last address of each run of addresses.
    Ranges,
    /// How many blocks and how many addresses there are.
    Counts,
    /// The blocks of the least list, as another program reads them.
    Exported(Export),
}

/// How the lists are merged.
#[derive(Clone, Copy, Debug, PartialEq, Eq)]
pub struct Request {
    /// What is done.
    pub operation: Operation,
    /// How it is printed.
    pub form: Form,
    /// Whether refused lines are skipped.
    pub skips_bad: bool,
    /// How the lists are written.
    pub shape: Shape,
    /// Whether a form that fills sets is printed if the result has no network.
    pub allows_empty: bool,
    /// The least number of networks of a result that is printed; 0 if none is given.
    pub at_least: u64,
    /// How many addresses of each family may differ.
    pub max_change: Bound,
    /// The number of lists on the first side; those of the second follow.
    pub middle: usize,
}

/// How lists are split.
#[derive(Clone, Copy, Debug, PartialEq, Eq)]
pub struct SplitRequest {
    /// The prefix length into which networks are cut.
    pub length: u8,
    /// Whether refused lines are skipped.
    pub skips_bad: bool,
    /// How the lists are written.
    pub shape: Shape,
    /// The least number of networks that are cut and printed; 0 if none is given.
    pub at_least: u64,
}

/// How lists are reduced.
#[derive(Clone, Copy, Debug, PartialEq, Eq)]
pub struct ReduceRequest {
    /// The greatest number of networks of IPv4; 0 if none is given.
    pub v4: usize,
    /// The greatest number of networks of IPv6; 0 if none is given.
    pub v6: usize,
    /// Whether the lists may have only one family, which has these numbers.
    pub is_of_one: bool,
    /// How many other addresses each family may have.
    pub bound: Bound,
    /// The union of which they have all addresses, and how it is printed.
    pub merge: Request,
}

/// What is looked for in pools.
#[derive(Clone, Copy, Debug, PartialEq, Eq)]
pub struct FreeRequest {
    /// What is printed.
    pub task: FreeTask,
    /// The prefix length of the networks.
    pub length: u8,
    /// Whether each of them is printed, or only the first.
    pub all: bool,
    /// How the pools and the used addresses are read: as the sides of a `minus`.
    pub merge: Request,
}

/// How lists are looked over.
#[derive(Clone, Copy, Debug, PartialEq, Eq)]
pub enum Inspection {
    /// Their wrong entries are printed.
    Check,
    /// Wrong entries and host bits are printed, then the entries that overlap an earlier one.
    Strict,
    /// Wrong entries are printed, then the pairs of entries that overlap.
    Overlaps,
}

/// What is asked for.
#[derive(Clone, Copy, Debug, PartialEq, Eq)]
pub enum Command {
    /// Lists are merged.
    Merge(Request),
    /// Lists are split.
    Split(SplitRequest),
    /// Lists are reduced.
    Reduce(ReduceRequest),
    /// Lists are looked over, by these rules.
    Inspect(Inspection, Rules),
    /// The lists after so many addresses, and so many lists of addresses, are searched for these,
    /// by these rules.
    Find(usize, usize, Rules),
    /// Free networks of the lists of the first side are looked for.
    Free(FreeRequest),
}

/// What is asked for, and the FILEs, those of the first side first.
pub struct Asked<'a> {
    /// What is asked for.
    pub command: Command,
    /// The FILEs.
    pub names: Vec<String>,
    /// The names of the sets that an export fills, and the texts around each line.
    pub sets: SetNames<'a>,
}

/// What the words after the program's name ask for, or their fault. `AllocError`: out of memory.
pub(crate) fn command_of<'a>(
    alloc: Global,
    table: &Table<'_>,
    words: &'a [String],
) -> Result<Result<Asked<'a>, Fault<'a>>, AllocError> {
    let Some((name, others)) = words.split_first() else {
        return Ok(Err(about(Subject::CommandLine, "no operation")));
    };
    match task_called(name.as_str()) {
        Some(task) => command_for(alloc, table, task, name.as_str(), others),
        None => Ok(Err(no_task_fault(table.rows, name.as_str()))),
    }
}

// The command of a task, from the words after the one that names it.
fn command_for<'a>(
    alloc: Global,
    table: &Table<'_>,
    task: Task,
    name: &'a str,
    others: &'a [String],
) -> Result<Result<Asked<'a>, Fault<'a>>, AllocError> {
    let mut items = items_of(alloc, table.rows, before_dashes(others))?;
    let mut names = lists_of(alloc, items.as_slice())?;
    let middle = names.len();
    let mut behind = items_of(alloc, table.rows, behind_dashes(others))?;
    let mut second = lists_of(alloc, behind.as_slice())?;
    items.append(&mut behind)?;
    add_from(alloc, task, items.as_slice(), &mut names)?;
    names.append(&mut second)?;
    let dashes = count_of(others, "--");
    let items = items.as_slice();
    match fault_of(table, task, name, dashes, items, middle, names.as_slice()) {
        Some(fault) => Ok(Err(fault)),
        None => Ok(Ok(Asked {
            command: asked_for(task, items, middle),
            names,
            sets: names_of(alloc, items)?,
        })),
    }
}

// Adds the FILE of `--from`.
fn add_from(
    alloc: Global,
    task: Task,
    items: &[Item<'_>],
    names: &mut Vec<String>,
) -> Result<(), AllocError> {
    if from_count(task, items) > 0 {
        add_file(alloc, value_of(items, FROM), names)?;
    }
    Ok(())
}

// The command for a task, its options and the number of names on the first side.
fn asked_for(task: Task, items: &[Item<'_>], middle: usize) -> Command {
    match task {
        Task::Merge(operation) => {
            Command::Merge(request_of(operation, Form::Blocks, items, middle))
        }
        Task::List => {
            let usual = Form::Exported(Export::Addresses);
            Command::Merge(request_of(Operation::Union, usual, items, middle))
        }
        Task::Split => Command::Split(SplitRequest {
            length: length_of(items),
            skips_bad: is_given(items, SKIP_BAD),
            shape: shape_of(items),
            at_least: at_least_of(items),
        }),
        Task::Reduce => Command::Reduce(reduction_of(items, middle)),
        Task::Check => {
            let inspection = inspection_of(is_given(items, STRICT));
            Command::Inspect(inspection, check_rules(items))
        }
        Task::Overlaps => Command::Inspect(Inspection::Overlaps, rules_by(items)),
        Task::Find => Command::Find(middle, from_count(task, items), rules_by(items)),
        Task::Free => Command::Free(free_of(items, middle)),
    }
}

// How lists are merged by these options.
fn request_of(operation: Operation, usual: Form, items: &[Item<'_>], middle: usize) -> Request {
    Request {
        operation,
        form: form_of(usual, items),
        skips_bad: is_given(items, SKIP_BAD),
        shape: shape_of(items),
        allows_empty: is_given(items, ALLOW_EMPTY),
        at_least: at_least_of(items),
        max_change: change_of(items),
        middle,
    }
}

// How lists are reduced by these options.
fn reduction_of(items: &[Item<'_>], middle: usize) -> ReduceRequest {
    ReduceRequest {
        v4: most_of(items, IPV4),
        v6: most_of(items, IPV6),
        is_of_one: is_given(items, MOST),
        bound: bound_of(items),
        merge: request_of(Operation::Union, Form::Blocks, items, middle),
    }
}

// What of pools these options ask for.
fn free_of(items: &[Item<'_>], middle: usize) -> FreeRequest {
    FreeRequest {
        task: free_task_of(items),
        length: length_of(items),
        all: is_given(items, ALL),
        merge: request_of(Operation::Minus, Form::Blocks, items, middle),
    }
}

// How a `check` looks lists over, strictly or not.
fn inspection_of(strictly: bool) -> Inspection {
    if strictly {
        Inspection::Strict
    } else {
        Inspection::Check
    }
}

/// The form that these options give, else the usual one.
pub(crate) fn form_of(usual: Form, items: &[Item<'_>]) -> Form {
    if is_given(items, RANGES) {
        return Form::Ranges;
    }
    if is_given(items, COUNT) {
        return Form::Counts;
    }
    match form_called(value_of(items, FORMAT)) {
        Some(form) => form,
        None => usual,
    }
}

// The format of lists that these options give.
fn shape_of(items: &[Item<'_>]) -> Shape {
    let is_strict = is_given(items, STRICT);
    if is_given(items, JSON_FIELD) {
        return if is_strict {
            Shape::StrictFields
        } else {
            Shape::Fields
        };
    }
    match (is_given(items, JSON), is_strict) {
        (false, _) => Shape::Lines(rules_by(items)),
        (true, false) => Shape::Json,
        (true, true) => Shape::StrictJson,
    }
}

// The rules of lists of lines that these options give.
fn rules_by(items: &[Item<'_>]) -> Rules {
    Rules {
        refuses_host_bits: is_given(items, STRICT),
        is_whole: is_given(items, WHOLE),
        takes_masks: is_given(items, MASKS),
        form: line_form_called(value_of(items, READ)).unwrap_or(LineForm::Plain),
    }
}

// The rules of a `check` that these options give. A strict one reports host bits itself: no entry is
// refused for them.
fn check_rules(items: &[Item<'_>]) -> Rules {
    Rules {
        refuses_host_bits: false,
        ..rules_by(items)
    }
}

// The prefix length into which networks are cut.
fn length_of(items: &[Item<'_>]) -> u8 {
    prefix_in(value_of(items, PREFIX)).unwrap_or(0)
}

/// The prefix length that a text names, which may begin with a `+`.
pub(crate) fn prefix_in(text: &str) -> Option<u8> {
    length_in(without_plus(text.as_bytes()), 128)
}

// The greatest number of networks of the family whose option has this row: 0 if none is given.
fn most_of(items: &[Item<'_>], row: usize) -> usize {
    let of_one = most_in(value_of(items, MOST)).unwrap_or(0);
    most_in(value_of(items, row)).unwrap_or(of_one) as usize
}

// How many other addresses each family may have: as many as the lists have, if nothing is given.
fn bound_of(items: &[Item<'_>]) -> Bound {
    bound_in(value_of(items, MAX_OTHERS)).unwrap_or(Bound::Percent(100))
}

// How many addresses of each family may differ: any number, if nothing is given.
fn change_of(items: &[Item<'_>]) -> Bound {
    bound_in(value_of(items, MAX_CHANGE)).unwrap_or(Bound::Any)
}

// The least number of networks of a result that is printed: 0 if none is given.
fn at_least_of(items: &[Item<'_>]) -> u64 {
    most_in(value_of(items, AT_LEAST)).unwrap_or(0)
}

/// The number from 1 that a text is.
pub(crate) fn most_in(text: &str) -> Option<u64> {
    match number_in(text) {
        Some(0) => None,
        number => number,
    }
}

// A text without the `+` at its start, if it has one.
fn without_plus(text: &[u8]) -> &[u8] {
    match text {
        [b'+', digits @ ..] => digits,
        _ => text,
    }
}

/// The form of this name.
pub(crate) fn form_called(text: &str) -> Option<Form> {
    match text {
        "plain" => Some(Form::Blocks),
        "range" => Some(Form::Ranges),
        "netmask" => Some(Form::Exported(Export::Netmask)),
        "wildcard" => Some(Form::Exported(Export::Wildcard)),
        "csv" => Some(Form::Exported(Export::Csv)),
        "nft" => Some(Form::Exported(Export::Nft)),
        "ipset" => Some(Form::Exported(Export::Ipset)),
        "json" => Some(Form::Exported(Export::Json)),
        "addresses" => Some(Form::Exported(Export::Addresses)),
        _ => None,
    }
}
