// Written by scripts/plain out of crates/cidr_merge/src/set_names.rt

//! The families that a result has, the names of the sets that an export fills, their limit, the
//! texts around each line, the names of fields of JSON, and numbers of hosts.

use fosibegan_core::plain_std::vec::Vec;
use fosibegan_core::plain_std::string::String;
use crate::exports::Version;
use crate::families::only_of;
use crate::field_names::fields_of;
use crate::rows::{AFTER, BEFORE, HOSTS, MAXELEM, SET, TABLE};
use fosibegan_core::plain_std::arrayvec::ArrayString;
use cidr_programs::lines::fault::RunFault;
use cidr_programs::lines::output::Output;
use cidr_programs::options::given::{is_given, value_of};
use cidr_programs::options::items::Item;
use cidr_programs::options::values::number_in;
use cidr_programs::program::putting::put_all;
use fosibegan_core::plain_std::alloc::{AllocError, Global};
use fosibegan_core::plain_std::io::Write;

/// The greatest length of a name, in bytes: ipset takes 31, and `_ipv4_new` needs nine of them.
const NAME_MAX: usize = 22;

/// The greatest number of elements that a set of ipset can be made for.
const MOST_ELEMENTS: u64 = 4_294_967_295;

/// The name of a set or a table.
pub(crate) type Name = ArrayString<NAME_MAX>;

/// The families that are looked at, the table of nftables, the beginning of both sets' names, how
/// many elements a set of ipset is made for, the texts around each line, the names of the fields of
/// JSON that are read, and the numbers of hosts that networks are to have.
#[derive(Debug)]
pub struct SetNames<'a> {
    /// The family that is looked at alone, if not both are.
    pub only: Option<Version>,
    /// The table.
    pub table: Name,
    /// The beginning of `NAME_ipv4` and `NAME_ipv6`.
    pub set: Name,
    /// The number after `maxelem`, in decimal digits.
    pub limit: &'a str,
    /// The text before each line.
    pub before: &'a str,
    /// The text after each line.
    pub after: &'a str,
    /// The names of the fields whose strings are read.
    pub fields: Vec<String>,
    /// The numbers of hosts of the networks that are looked for, with commas between them.
    pub hosts: &'a str,
}

impl<'a> SetNames<'a> {
    /// The names of the fields whose strings are read.
    pub(crate) fn field_names(&self) -> &[String] {
        self.fields.as_slice()
    }
}

/// Returns the family, names and texts that options give, with defaults for those not given. `AllocError`:
/// out of memory.
pub(crate) fn names_of<'a>(alloc: Global, items: &[Item<'a>]) -> Result<SetNames<'a>, AllocError> {
    let fields = fields_of(alloc, items)?;
    Ok(SetNames {
        only: only_of(items),
        table: name_by(items, TABLE),
        set: name_by(items, SET),
        limit: limit_by(items),
        before: value_of(items, BEFORE),
        after: value_of(items, AFTER),
        fields,
        hosts: value_of(items, HOSTS),
    })
}

/// Prints a line: a text, between the texts before and after each line.
pub(crate) fn put_line<W: Write>(
    names: &SetNames<'_>,
    text: &str,
    output: &mut Output<'_, W>,
) -> Result<(), RunFault> {
    put_all(&[names.before, text, names.after, "\n"], output)
}

// Returns the number that `--maxelem` gives, else the greatest.
fn limit_by<'a>(items: &[Item<'a>]) -> &'a str {
    if is_given(items, MAXELEM) {
        value_of(items, MAXELEM)
    } else {
        "4294967295"
    }
}

/// Returns whether a text is a number from 1 to 4,294,967,295, in decimal digits of which the first
/// is not 0.
pub(crate) fn is_limit(text: &str) -> bool {
    match (text.as_bytes(), number_in(text)) {
        ([first, ..], Some(number)) => *first != b'0' && number <= MOST_ELEMENTS,
        _ => false,
    }
}

// Returns the name that the option of a row gives, else `cidr_merge`.
fn name_by(items: &[Item<'_>], row: usize) -> Name {
    if is_given(items, row) {
        name_in(value_of(items, row))
    } else {
        name_in("cidr_merge")
    }
}

// Returns a text as a name, or an empty name if it is too long.
fn name_in(text: &str) -> Name {
    let mut name = Name::new();
    if text.len() <= NAME_MAX {
        name.push_str(text);
    }
    name
}

/// Returns whether a text is a name: 1 to 22 ASCII letters, digits, `_`, `-` and `.`, the first of
/// which is a letter.
pub(crate) fn is_set_name(text: &str) -> bool {
    match text.as_bytes() {
        [] => false,
        [first, others @ ..] => are_name_bytes(others)
            && is_letter(*first)
            && others.len() < NAME_MAX,
    }
}

// Returns whether all bytes may be in a name.
fn are_name_bytes(bytes: &[u8]) -> bool {
    bytes.iter().all(|byte| is_name_byte(*byte))
}

// Returns whether a byte is an ASCII letter.
fn is_letter(byte: u8) -> bool {
    byte >= b'a' && byte <= b'z' || byte >= b'A' && byte <= b'Z'
}

// Returns whether a byte may be in a name.
fn is_name_byte(byte: u8) -> bool {
    is_letter(byte) || byte >= b'0' && byte <= b'9' || byte == b'_' || byte == b'-' || byte == b'.'
}
