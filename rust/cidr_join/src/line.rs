// Written by scripts/plain out of crates/cidr_join/src/line.rt

//! What a line of a list says.

use crate::comment::{comment_len, has_entry, is_skipped};
use crate::pair::{OfWord, Pair, pair_of};
use crate::value::Value;
use cidr_programs::lists::{ByteKind, Entry, EntryFault, LINE_MAX, front_len, read_entry, trim};

/// Why a line of a list is refused.
#[derive(Clone, Copy, Debug, PartialEq, Eq)]
pub enum Cause {
    /// It does not begin with a network or range.
    Entry(EntryFault),
    /// No value follows its network or range.
    Value,
    /// A second address of the same family follows its address.
    Second,
    /// Its network, or one of the blocks of its range, already has a value.
    Twice,
    /// It has more than 1,024 bytes.
    Length,
    /// Its network has host bits, and such networks are refused (`ListRules`).
    HostBits,
}

impl Cause {
    /// Returns the cause in a few words.
    pub(crate) fn text(self) -> &'static str {
        match self {
            Cause::Entry(fault) => fault.text(),
            Cause::Value => "value: there is none",
            Cause::Second => "second address",
            Cause::Twice => "repetition",
            Cause::Length => "length",
            Cause::HostBits => "host bits",
        }
    }
}

/// A network or a range, and its value.
#[derive(Clone, Copy, Debug)]
pub struct RouteEntry<'a> {
    /// The network or the range.
    pub entry: Entry,
    /// Its value. Empty only if it may be missing.
    pub value: Value<'a>,
}

/// Returns what a line says: nothing if it is blank or begins with `#` or `;`. If `bare`, the value
/// may be missing. An address that is followed by a second one is the first of a range if `ranges`,
/// else refused. What begins with `#` or `;` directly after a network or range is a comment; after
/// blanks or a comma it is a value. Neither may have an entry after its marks. Returns the cause if
/// the line is refused.
pub(crate) fn read_route(
    line: &[u8],
    bare: bool,
    ranges: bool,
) -> Result<Option<RouteEntry<'_>>, Cause> {
    if line.len() > LINE_MAX {
        return Err(Cause::Length);
    }
    let text = trim::<Blank>(line);
    if is_skipped(text) {
        return Ok(None);
    }
    let said = match read_text(text, ranges) {
        Ok(said) => said,
        Err(cause) => return Err(cause),
    };
    if said.value.bytes().is_empty() && !bare {
        return Err(Cause::Value);
    }
    if has_entry(said.value.bytes()) {
        return Err(Cause::Entry(EntryFault::Second));
    }
    Ok(Some(said))
}

/// Returns the text of the network or range of a line, without a comment, for messages; no clause
/// says what it is.
pub(crate) fn entry_text(line: &[u8]) -> &[u8] {
    let text = trim::<Blank>(line);
    &text[..names_len(text)]
}

/// Returns the two addresses that a line begins with, for messages; no clause says what they are.
pub(crate) fn pair_in(line: &[u8]) -> Option<Pair> {
    let text = trim::<Blank>(line);
    let end = entry_len(text);
    pair_of(&text[..end], value_part(&text[end..]))
}

// Returns the network or range that a text begins with, and the value after it, or why there is
// none.
fn read_text(text: &[u8], ranges: bool) -> Result<RouteEntry<'_>, Cause> {
    let end = entry_len(text);
    let (front, value) = (&text[..end], value_part(&text[end..]));
    match pair_of(front, value) {
        Some(pair) if ranges => match pair.range() {
            Some(entry) => Ok(RouteEntry {
                entry,
                value: Value::new(value_behind(value)),
            }),
            None => Err(Cause::Entry(EntryFault::Range)),
        },
        Some(pair) if pair.are_one_family() => Err(Cause::Second),
        _ => match entry_of(front) {
            Ok(entry) => Ok(RouteEntry {
                entry,
                value: Value::new(value),
            }),
            Err(fault) => Err(Cause::Entry(fault)),
        },
    }
}

// Returns the network or range that a text is, read as a line of a list of networks. An empty text
// has the fault of an address.
fn entry_of(text: &[u8]) -> Result<Entry, EntryFault> {
    match read_entry(text) {
        Ok(Some(entry)) => Ok(entry),
        Ok(None) => Err(EntryFault::Address),
        Err(fault) => Err(fault),
    }
}

// Returns the length of the network or range that a text begins with, and of a comment that begins
// directly after it.
fn entry_len(text: &[u8]) -> usize {
    let names = names_len(text);
    names + comment_len(&text[names..])
}

// Returns the length of the network or range that a text begins with, and of what a `-` after it
// adds, which makes it neither.
fn names_len(text: &[u8]) -> usize {
    let ends = ends_len(text);
    ends + tail_len(&text[ends..])
}

// Returns the length of the network or range that a text begins with: up to the end of its first
// name, or, if a `-` follows that, of the name after the `-`.
fn ends_len(text: &[u8]) -> usize {
    let name = front_len::<OfName>(text);
    name + tail_len(&text[name..])
}

// The length of the `-` and the name that a text begins with, each after spaces and tabs or none,
// or 0.
fn tail_len(text: &[u8]) -> usize {
    let gap = front_len::<Gap>(text);
    let dash = dash_len(&text[gap..]);
    if dash == 0 {
        return 0;
    }
    gap + dash
}

// The length of the `-`, the spaces and tabs and the name that a text begins with, or 0.
fn dash_len(text: &[u8]) -> usize {
    match text.split_first() {
        Some((byte, rest)) if *byte == b'-' => {
            let gap = front_len::<Gap>(rest);
            1 + gap + front_len::<OfName>(&rest[gap..])
        }
        _ => 0,
    }
}

// Returns what follows the first word of a value, as a value.
fn value_behind(value: &[u8]) -> &[u8] {
    value_part(&value[front_len::<OfWord>(value)..])
}

// Returns what follows blanks and at most one comma, without the blanks around it.
fn value_part(text: &[u8]) -> &[u8] {
    trim::<Blank>(behind_comma(trim::<Blank>(text)))
}

// Returns the text after the comma that it begins with, or the whole text if it begins with none.
fn behind_comma(text: &[u8]) -> &[u8] {
    match text.split_first() {
        Some((byte, rest)) if *byte == b',' => rest,
        _ => text,
    }
}

// A space, a tab or a carriage return.
struct Blank;

impl ByteKind for Blank {
    fn has(byte: u8) -> bool {
        byte == b' ' || byte == b'\t' || byte == b'\r'
    }
}

// A space or a tab.
struct Gap;

impl ByteKind for Gap {
    fn has(byte: u8) -> bool {
        byte == b' ' || byte == b'\t'
    }
}

// Neither a space nor a tab nor a comma nor a `-` nor `#` nor `;`.
struct OfName;

impl ByteKind for OfName {
    fn has(byte: u8) -> bool {
        byte != b' '
            && byte != b'\t'
            && byte != b','
            && byte != b'-'
            && byte != b'#'
            && byte != b';'
    }
}
