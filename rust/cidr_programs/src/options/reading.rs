// Written by scripts/plain out of crates/options/src/reading.rt

//! Reads the words of a command line, by the rows of a table of options.

use fosibegan_core::plain_std::vec::Vec;
use fosibegan_core::plain_std::string::String;
use crate::options::items::{Item, Mode, Text};
use crate::options::table::{Row, joined, kind_at, lettered, named};
use fosibegan_core::plain_std::alloc::{AllocError, Global};

/// Returns the items that the words say, in their order, by the rows of a table of options.
///
/// An error is returned if memory runs out.
///
/// ```
/// # use cidr_programs::in_examples::*;
/// # ended(|| {
/// use cidr_programs::options::items::Item;
/// use cidr_programs::options::reading::items_of;
/// use cidr_programs::options::table::{Kind, Row, letter};
///
/// let rows = [letter!(b'v', Flag, ""), letter!(b'k', Field, "not a field number")];
/// let mut words = Vec::new(Global);
/// words.push(String::from_str(Global, "-vk7")?)?;
/// words.push(String::from_str(Global, "log")?)?;
/// let items = items_of(Global, &rows, words.as_slice())?;
/// assert!(matches!(items.as_slice(), [Item::Flag(0), Item::Value(1, _), Item::File(_)]));
/// # Ok(())
/// # });
/// ```
pub fn items_of<'a>(
    alloc: Global,
    rows: &[Row],
    words: &'a [String],
) -> Result<Vec<Item<'a>>, AllocError> {
    let mut all = Vec::new(alloc);
    let mut mode = Mode::Free;
    let mut at = 0;
    while at < words.len() {
        mode = put_word(rows, mode, words[at].as_str(), &mut all)?;
        at += 1;
    }
    if let Mode::Value(row) = mode {
        all.push(Item::Lacks(row))?;
    }
    Ok(all)
}

// Appends the items of a word, and returns where the next word is.
fn put_word<'a>(
    rows: &[Row],
    mode: Mode,
    word: &'a str,
    all: &mut Vec<Item<'a>>,
) -> Result<Mode, AllocError> {
    match mode {
        Mode::Free => put_free(rows, word, all),
        Mode::Value(row) => {
            all.push(Item::Value(row, Text::new(word)))?;
            Ok(Mode::Free)
        }
        Mode::Files => {
            all.push(Item::File(Text::new(word)))?;
            Ok(Mode::Files)
        }
    }
}

// Appends the items of a word where an option may be, and returns where the next word
// is.
fn put_free<'a>(rows: &[Row], word: &'a str, all: &mut Vec<Item<'a>>) -> Result<Mode, AllocError> {
    if is_plain(word) {
        all.push(Item::File(Text::new(word)))?;
        Ok(Mode::Free)
    } else if word == "--" {
        Ok(Mode::Files)
    } else if begins_long(word) {
        put_name(rows, word, all)
    } else {
        put_letters(rows, word, all)
    }
}

/// Whether a word, where an option may be, is a FILE: it is `-`, or does not begin with `-`.
///
/// ```
/// # use cidr_programs::in_examples::*;
/// assert!(cidr_programs::options::reading::is_plain("-") && !cidr_programs::options::reading::is_plain("-v"));
/// ```
pub fn is_plain(word: &str) -> bool {
    word == "-" || !word.as_bytes().starts_with(b"-".as_slice())
}

// Whether the word begins with `--`.
fn begins_long(word: &str) -> bool {
    word.as_bytes().starts_with(b"--".as_slice())
}

// Appends the items of a word that begins with `--`, and returns the mode of the next word.
fn put_name<'a>(rows: &[Row], word: &'a str, all: &mut Vec<Item<'a>>) -> Result<Mode, AllocError> {
    let Some(row) = named(rows, word) else {
        all.push(joined_item(rows, word))?;
        return Ok(Mode::Free);
    };
    if kind_at(rows, row).takes_value() {
        return Ok(Mode::Value(row));
    }
    all.push(Item::Flag(row))?;
    Ok(Mode::Free)
}

// Returns the item of a long name with a value after `=`, or of an unknown word.
fn joined_item<'a>(rows: &[Row], word: &'a str) -> Item<'a> {
    let Some((name, value)) = word.split_once('=') else {
        return Item::Unknown(Text::new(word));
    };
    match joined(rows, name) {
        Some(row) => Item::Joined(row, Text::new(value), Text::new(word)),
        None => Item::Unknown(Text::new(word)),
    }
}

// Appends the items of the letters of a word, and returns the mode of the next word.
fn put_letters<'a>(rows: &[Row], word: &'a str, all: &mut Vec<Item<'a>>) -> Result<Mode, AllocError> {
    let mut text = behind_dash(word);
    let mut first = true;
    'letters: while let Some((letter, rest)) = split_letter(text) {
        let Some(row) = lettered(rows, letter) else {
            all.push(Item::Unknown(Text::new(word)))?;
            return Ok(Mode::Free);
        };
        if kind_at(rows, row).takes_value() {
            return put_value(row, first, word, rest, all);
        }
        all.push(Item::Flag(row))?;
        text = rest;
        first = false;
    }
    if !text.is_empty() {
        all.push(Item::Unknown(Text::new(word)))?;
    }
    Ok(Mode::Free)
}

// Appends an option with its value, if that follows its letter, and returns the mode of the next
// word.
fn put_value<'a>(
    row: usize,
    first: bool,
    word: &'a str,
    value: &'a str,
    all: &mut Vec<Item<'a>>,
) -> Result<Mode, AllocError> {
    if value.is_empty() {
        return Ok(Mode::Value(row));
    }
    let value = behind_sign(value);
    if first {
        all.push(Item::Joined(row, Text::new(value), Text::new(word)))?;
    } else {
        all.push(Item::Value(row, Text::new(value)))?;
    }
    Ok(Mode::Free)
}

// Returns the value without the `=` before it, if there is one and more follows.
fn behind_sign(value: &str) -> &str {
    match value.strip_prefix('=') {
        Some(rest) => { if rest.is_empty() { value } else { rest } }
        None => value,
    }
}

// Returns what follows the `-` at the start of a word.
fn behind_dash(word: &str) -> &str {
    match split_letter(word) {
        Some((_, rest)) => rest,
        None => "",
    }
}

// Splits a text into its first character, if that is ASCII, and what follows it.
fn split_letter(text: &str) -> Option<(u8, &str)> {
    let Some((first, _)) = text.as_bytes().split_first() else {
        return None;
    };
    if *first >= 128 {
        return None;
    }
    match text.strip_prefix(char::from(*first)) {
        Some(rest) => Some((*first, rest)),
        None => None,
    }
}
