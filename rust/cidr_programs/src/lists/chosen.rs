// Written by scripts/plain out of crates/lists/src/chosen.rt

//! Which strings of JSON documents are taken.

use fosibegan_core::plain_std::string::String;
use crate::lists::fields::has_field;
use fosibegan_core::plain_std::json::Value;

/// The names of fields: members of objects of JSON.
///
/// ```
/// # use cidr_programs::in_examples::*;
/// # ended(|| {
/// let names = [String::from_str(Global, "ip_prefix")?];
/// let fields = cidr_programs::lists::FieldNames::new(&names);
/// assert!(fields.has("ip_prefix") && !fields.has("ip_prefixes") && !fields.has("ip"));
/// # Ok(())
/// # });
/// ```
#[derive(Debug)]
pub struct FieldNames<'a> {
    names: &'a [String],
}

impl<'a> FieldNames<'a> {
    /// Creates the names of fields from texts.
    ///
    /// ```
    /// # use cidr_programs::in_examples::*;
    /// let fields = cidr_programs::lists::FieldNames::new(&[]);
    /// assert!(!fields.has(""));
    /// ```
    pub fn new(names: &'a [String]) -> FieldNames<'a> {
        FieldNames { names }
    }

    /// Returns whether a key is one of the names.
    ///
    /// ```
    /// # use cidr_programs::in_examples::*;
    /// # ended(|| {
    /// let names = [String::from_str(Global, "cidr")?];
    /// assert!(!cidr_programs::lists::FieldNames::new(&names).has("CIDR"));
    /// # Ok(())
    /// # });
    /// ```
    pub fn has(&self, key: &str) -> bool {
        for name in self.names {
            if name.as_str() == key {
                return true;
            }
        }
        false
    }

    /// Returns the index of the first name of which documents have no member; of no names, 0.
    pub(crate) fn first_lacking(&self, documents: &[Value]) -> Option<usize> {
        if self.names.is_empty() {
            return Some(0);
        }
        first_without(self.names, documents)
    }
}

// Returns the index of the first of these names of which documents have no member.
fn first_without(names: &[String], documents: &[Value]) -> Option<usize> {
    names
        .iter()
        .position(|name| !have_field(documents, name.as_str()))
}

// Returns whether a member with this name is in one of the documents.
fn have_field(documents: &[Value], name: &str) -> bool {
    for document in documents {
        if has_field(name, document) {
            return true;
        }
    }
    false
}

/// Which strings of JSON documents are taken, and which of them are refused if they are no entry.
///
/// ```
/// # use cidr_programs::in_examples::*;
/// # ended(|| {
/// use cidr_programs::lists::{FieldNames, Strings};
///
/// let names = [String::from_str(Global, "ip_prefix")?];
/// let strings = Strings::OfFields(FieldNames::new(&names));
/// assert!(matches!(strings, Strings::OfFields(_)));
/// # Ok(())
/// # });
/// ```
#[derive(Debug)]
pub enum Strings<'a> {
    /// All, of which those that look like an entry have to be one.
    LookingLikeEntries,
    /// All, each of which has to be an entry.
    All,
    /// Those of fields with one of these names, each of which has to be an entry.
    OfFields(FieldNames<'a>),
}
