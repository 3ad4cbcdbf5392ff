// Written by scripts/plain out of crates/cidr_merge/src/field_names.rt

//! The names of fields of JSON documents that a command line gives.

use fosibegan_core::plain_std::vec::Vec;
use fosibegan_core::plain_std::string::String;
use crate::named_lists::add_name;
use crate::rows::JSON_FIELD;
use cidr_programs::options::items::Item;
use fosibegan_core::plain_std::alloc::{AllocError, Global};

/// The NAMEs of `--json-field`, in their order.
pub(crate) fn fields_of(alloc: Global, items: &[Item<'_>]) -> Result<Vec<String>, AllocError> {
    let mut fields = Vec::new(alloc);
    let mut at = 0;
    while at < items.len() {
        add_field(alloc, &items[at], &mut fields)?;
        at += 1;
    }
    Ok(fields)
}

// Adds the name that an item gives, if it gives one.
fn add_field(alloc: Global, item: &Item<'_>, fields: &mut Vec<String>) -> Result<(), AllocError> {
    match item {
        Item::Value(JSON_FIELD, name) | Item::Joined(JSON_FIELD, name, _) => {
            add_name(alloc, name.as_str(), "", fields)
        }
        _ => Ok(()),
    }
}
