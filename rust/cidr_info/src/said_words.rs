// Written by scripts/plain out of crates/cidr_info/src/said_words.rt

//! What the words of a command line and the lines of standard input say.

use fosibegan_core::plain_std::vec::Vec;
use crate::said::Said;
use fosibegan_core::byte_search::find_from;
use cidr_programs::lists::{Blank, trim};
use cidr_programs::options::items::Item;
use fosibegan_core::plain_std::alloc::{AllocError, Global};

/// Whether one of the words is `-`, which stands for standard input.
pub(crate) fn reads_input(items: &[Item<'_>]) -> bool {
    items.iter().any(|item| is_input(item))
}

// Whether this is the word `-`.
fn is_input(item: &Item<'_>) -> bool {
    match item {
        Item::File(name) => name.as_str() == "-",
        _ => false,
    }
}

/// Returns what the words say, in their order; `-` stands for the lines of `input`.
///
/// An error is returned if memory runs out.
pub(crate) fn words_said<'a>(
    alloc: Global,
    items: &[Item<'a>],
    input: &'a [u8],
) -> Result<Vec<Said<'a>>, AllocError> {
    let mut all = Vec::new(alloc);
    let mut at = 0;
    while at < items.len() {
        put_word(&items[at], input, &mut all)?;
        at += 1;
    }
    Ok(all)
}

// Appends what a word says.
fn put_word<'a>(item: &Item<'a>, input: &'a [u8], all: &mut Vec<Said<'a>>) -> Result<(), AllocError> {
    if is_input(item) {
        return put_lines(input, all);
    }
    if let Item::File(name) = item {
        let word = name.as_str();
        all.push(Said::new(0, word.as_bytes()))?;
    }
    Ok(())
}

// Appends what the lines of an input say.
fn put_lines<'a>(input: &'a [u8], all: &mut Vec<Said<'a>>) -> Result<(), AllocError> {
    let mut line = 1u64;
    let mut at = 0;
    'lines: while let Some(end) = find_from(input, at, b'\n') {
        put_line(line, without_return(&input[at..end]), all)?;
        line = line.saturating_add(1);
        at = end + 1;
    }
    put_line(line, &input[at..], all)
}

// Returns a line that a line feed ended, without the one carriage return at its end, if any.
fn without_return(line: &[u8]) -> &[u8] {
    match line.split_last() {
        Some((byte, front)) if *byte == b'\r' => front,
        _ => line,
    }
}

// Appends what a line says, unless it is empty or a comment.
fn put_line<'a>(line: u64, bytes: &'a [u8], all: &mut Vec<Said<'a>>) -> Result<(), AllocError> {
    let text = trim::<Blank>(bytes);
    if !is_skipped(text) {
        all.push(Said::new(line, text))?;
    }
    Ok(())
}

// Whether a text without the blanks around it is empty or a comment.
fn is_skipped(text: &[u8]) -> bool {
    match text.first() {
        Some(byte) => *byte == b'#',
        None => true,
    }
}
