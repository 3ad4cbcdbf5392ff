// Written by scripts/plain out of crates/options/src/given.rt

//! Which options are given, their values, and the FILEs.

use fosibegan_core::plain_std::vec::Vec;
use fosibegan_core::plain_std::string::String;
use crate::options::items::Item;
use fosibegan_core::plain_std::alloc::{AllocError, Global};

/// Whether the option of this row is given.
///
/// ```
/// # use cidr_programs::in_examples::*;
/// use cidr_programs::options::given::is_given;
/// use cidr_programs::options::items::{Item, Text};
///
/// let items = [Item::Flag(0), Item::Value(3, Text::new("7"))];
/// assert!(is_given(&items, 3));
/// assert!(!is_given(&items, 1));
/// ```
pub fn is_given(items: &[Item<'_>], row: usize) -> bool {
    items.iter().any(|item| names(item, row))
}

/// Whether the item is the option of this row, even if it lacks its value.
///
/// ```
/// # use cidr_programs::in_examples::*;
/// use cidr_programs::options::given::names;
/// use cidr_programs::options::items::Item;
///
/// assert!(names(&Item::Lacks(1), 1) && !names(&Item::Flag(0), 1));
/// ```
pub fn names(item: &Item<'_>, row: usize) -> bool {
    match item {
        Item::Flag(one) | Item::Value(one, _) | Item::Joined(one, _, _) | Item::Lacks(one) => {
            *one == row
        }
        Item::File(_) | Item::Unknown(_) => false,
    }
}

/// Returns how often the option of this row is given.
pub(crate) fn times(items: &[Item<'_>], row: usize) -> usize {
    items.iter().filter(|item| names(item, row)).count()
}

/// Returns the last value that the option of this row is given, or an empty text if there is none.
///
/// ```
/// # use cidr_programs::in_examples::*;
/// use cidr_programs::options::given::value_of;
/// use cidr_programs::options::items::{Item, Text};
///
/// let items = [Item::Value(3, Text::new("7")), Item::Value(3, Text::new("9"))];
/// assert_eq!(value_of(&items, 3), "9");
/// assert_eq!(value_of(&items, 0), "");
/// ```
pub fn value_of<'a>(items: &[Item<'a>], row: usize) -> &'a str {
    let mut value = "";
    let mut at = 0;
    while at < items.len() {
        value = value_in(&items[at], row, value);
        at += 1;
    }
    value
}

/// Returns the value that the item has if it is the option of this row with one, and else `value`.
///
/// ```
/// # use cidr_programs::in_examples::*;
/// use cidr_programs::options::given::value_in;
/// use cidr_programs::options::items::{Item, Text};
///
/// assert_eq!(value_in(&Item::Value(1, Text::new("7")), 1, ""), "7");
/// ```
pub fn value_in<'a>(item: &Item<'a>, row: usize, value: &'a str) -> &'a str {
    match item {
        Item::Value(one, text) | Item::Joined(one, text, _) => {
            if *one == row { text.as_str() } else { value }
        }
        Item::Flag(_) | Item::File(_) | Item::Unknown(_) | Item::Lacks(_) => value,
    }
}

/// Returns the names of the FILEs, in their order.
///
/// An error is returned if memory runs out.
///
/// ```
/// # use cidr_programs::in_examples::*;
/// # ended(|| {
/// use cidr_programs::options::given::files_of;
/// use cidr_programs::options::items::{Item, Text};
///
/// let items = [Item::File(Text::new("a")), Item::Flag(0), Item::File(Text::new("b"))];
/// let files = files_of(Global, &items)?;
/// assert_eq!(files.len(), 2);
/// assert_eq!(files[1].as_str(), "b");
/// # Ok(())
/// # });
/// ```
pub fn files_of(alloc: Global, items: &[Item<'_>]) -> Result<Vec<String>, AllocError> {
    let mut files = Vec::new(alloc);
    let mut at = 0;
    while at < items.len() {
        if let Item::File(name) = &items[at] {
            files.push(String::from_str(alloc, name.as_str())?)?;
        }
        at += 1;
    }
    Ok(files)
}

/// Returns the names of the files to read: the FILEs, or `-`, which stands for standard input, if
/// there are none.
///
/// An error is returned if memory runs out.
///
/// ```
/// # use cidr_programs::in_examples::*;
/// # ended(|| {
/// use cidr_programs::options::given::inputs_of;
/// use cidr_programs::options::items::{Item, Text};
///
/// assert_eq!(inputs_of(Global, &[Item::Flag(0)])?[0].as_str(), "-");
/// assert_eq!(inputs_of(Global, &[Item::File(Text::new("a"))])?[0].as_str(), "a");
/// # Ok(())
/// # });
/// ```
pub fn inputs_of(alloc: Global, items: &[Item<'_>]) -> Result<Vec<String>, AllocError> {
    let mut files = files_of(alloc, items)?;
    if files.is_empty() {
        files.push(String::from_str(alloc, "-")?)?;
    }
    Ok(files)
}
