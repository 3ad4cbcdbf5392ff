// Written by scripts/plain out of crates/cidr_merge/src/spelling.rt

//! The words of a command line with `reduce N` spelled out.

use fosibegan_core::plain_std::vec::Vec;
use fosibegan_core::plain_std::string::String;
use crate::named_lists::add_name;
use cidr_programs::options::values::number_in;
use cidr_programs::program::command_line::is;
use fosibegan_core::plain_std::alloc::{AllocError, Global};

/// Whether the words begin with `reduce` and a number, which stands for `--most` and the number.
pub(crate) fn is_short(words: &[String]) -> bool {
    match words {
        [name, number, ..] => is(name, "reduce") && number_in(number.as_str()).is_some(),
        _ => false,
    }
}

/// The words, the first two of which are `reduce` and a number, with `--most` between those.
pub(crate) fn spelled_out(alloc: Global, words: &[String]) -> Result<Vec<String>, AllocError> {
    let mut all = Vec::new(alloc);
    add_words(alloc, &words[..1], &mut all)?;
    add_name(alloc, "", "--most", &mut all)?;
    add_words(alloc, &words[1..], &mut all)?;
    Ok(all)
}

// Adds copies of words.
fn add_words(alloc: Global, words: &[String], all: &mut Vec<String>) -> Result<(), AllocError> {
    let mut at = 0;
    while at < words.len() {
        add_name(alloc, "", words[at].as_str(), all)?;
        at += 1;
    }
    Ok(())
}
