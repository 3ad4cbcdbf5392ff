// Written by scripts/plain out of crates/cidr_filter/src/telling.rt

//! The names and numbers by which refused lines are reported.

use fosibegan_core::plain_std::vec::Vec;
use fosibegan_core::plain_std::string::String;
use crate::reading::{Source, source_of};
use cidr_programs::lists::Refusal;
use cidr_programs::options::items::Item;
use cidr_programs::program::telling::Places;
use fosibegan_core::plain_std::alloc::{AllocError, Global};

/// The places of refused lines: in a list or in the text of an `-e`, by the items that name them.
#[derive(Clone, Copy)]
pub(crate) struct InOptions<'a, 'b> {
    pub(crate) items: &'a [Item<'b>],
}

impl Places for InOptions<'_, '_> {
    fn place(&self, refusal: Refusal) -> (usize, u64) {
        if is_text_at(self.items, refusal.list) {
            (refusal.list, texts_up_to(self.items, refusal.list))
        } else {
            (refusal.list, refusal.line)
        }
    }
}

// Returns whether the item at this index is an `-e`.
fn is_text_at(items: &[Item<'_>], place: usize) -> bool {
    match items.get(place) {
        Some(item) => is_text(item),
        None => false,
    }
}

// Returns whether an item is an `-e`.
fn is_text(item: &Item<'_>) -> bool {
    matches!(source_of(item), Source::Text(_))
}

// Returns how many of the items up to this index are an `-e`.
fn texts_up_to(items: &[Item<'_>], place: usize) -> u64 {
    texts_in(&items[..items.len().min(place.saturating_add(1))]) as u64
}

// Returns how many of the items are an `-e`.
fn texts_in(items: &[Item<'_>]) -> usize {
    items.iter().filter(|item| is_text(item)).count()
}

/// Returns for each item the name by which refused lines of its list are reported: the list's own,
/// or `-e`; empty for an item that names no list. Returns `AllocError` if memory runs out.
pub(crate) fn names_of(alloc: Global, items: &[Item<'_>]) -> Result<Vec<String>, AllocError> {
    let mut names = Vec::new(alloc);
    for item in items {
        names.push(told_name(alloc, item)?)?;
    }
    Ok(names)
}

// Returns the name by which refused lines of the list that an item names are reported.
fn told_name(alloc: Global, item: &Item<'_>) -> Result<String, AllocError> {
    match source_of(item) {
        Source::List(name) => String::from_str(alloc, name.as_str()),
        Source::Text(_) => String::from_str(alloc, "-e"),
        Source::Nothing => Ok(String::new(alloc)),
    }
}
