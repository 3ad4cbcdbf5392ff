// Written by scripts/plain out of crates/lists/src/strings.rt

//! Takes the strings of a JSON value.

use fosibegan_core::plain_std::string::String;
use crate::lists::list_reader::ListReader;
use fosibegan_core::plain_std::json::{Map, Value};

/// Takes the strings of a value. Those that name no entry are refused if the reading is strict.
pub(crate) fn take_value(lists: &mut ListReader, value: &Value, is_strict: bool) {
    match value {
        Value::Null => {}
        Value::Bool(_) => {}
        Value::Number(_) => {}
        Value::String(text) => lists.take_string(text.as_bytes(), is_strict),
        Value::Array(items) => take_items(lists, items, is_strict),
        Value::Object(members) => take_members(lists, members, is_strict),
    }
}

// Takes the strings of the elements of an array.
fn take_items(lists: &mut ListReader, items: &[Value], is_strict: bool) {
    for item in items {
        take_value(lists, item, is_strict);
    }
}

// Takes the strings of the values of an object.
fn take_members(lists: &mut ListReader, members: &Map<String, Value>, is_strict: bool) {
    for (_, member) in members.iter() {
        take_value(lists, member, is_strict);
    }
}
