// Written by scripts/plain out of crates/cidr_merge/src/named_lists.rt

//! The lists that a command line names: FILEs, and TEXTs of `-e`, which are among them.

use fosibegan_core::plain_std::vec::Vec;
use fosibegan_core::plain_std::string::String;
use crate::rows::TEXT;
use cidr_programs::options::items::Item;
use fosibegan_core::plain_std::alloc::{AllocError, Global};

/// The names of the lists, in their order. A TEXT is named `-e TEXT`, as no FILE is.
pub(crate) fn lists_of(alloc: Global, items: &[Item<'_>]) -> Result<Vec<String>, AllocError> {
    let mut lists = Vec::new(alloc);
    let mut at = 0;
    while at < items.len() {
        add_list(alloc, &items[at], &mut lists)?;
        at += 1;
    }
    Ok(lists)
}

// Adds the list that an item names, if it names one.
fn add_list(alloc: Global, item: &Item<'_>, lists: &mut Vec<String>) -> Result<(), AllocError> {
    match item {
        Item::File(name) => add_name(alloc, "", name.as_str(), lists),
        Item::Value(TEXT, text) | Item::Joined(TEXT, text, _) => {
            add_name(alloc, "-e ", text.as_str(), lists)
        }
        _ => Ok(()),
    }
}

/// Adds a name, in two parts.
pub(crate) fn add_name(
    alloc: Global,
    first: &str,
    second: &str,
    lists: &mut Vec<String>,
) -> Result<(), AllocError> {
    let mut name = String::from_str(alloc, first)?;
    name.push_str(second)?;
    lists.push(name)?;
    Ok(())
}

/// Adds the name of a FILE that is the value of an option, which may be any text: no TEXT has it.
pub(crate) fn add_file(alloc: Global, name: &str, lists: &mut Vec<String>) -> Result<(), AllocError> {
    match text_in(name) {
        Some(_) => add_name(alloc, "./", name, lists),
        None => add_name(alloc, "", name, lists),
    }
}

/// The TEXT of a list of this name, if it is one.
pub(crate) fn text_in(name: &str) -> Option<&str> {
    match after(name, '-') {
        Some(rest) => match after(rest, 'e') {
            Some(rest) => after(rest, ' '),
            None => None,
        },
        None => None,
    }
}

// What follows a letter at the head of a text.
fn after(text: &str, letter: char) -> Option<&str> {
    text.strip_prefix(letter)
}
