// Written by scripts/plain out of crates/lists/src/fields.rt

//! Takes the strings of fields of a JSON value.

use fosibegan_core::plain_std::string::String;
use crate::lists::chosen::FieldNames;
use crate::lists::list_reader::ListReader;
use fosibegan_core::plain_std::json::{Map, Value};

/// Returns whether a member with this name is in a value, at any depth.
pub(crate) fn has_field(name: &str, value: &Value) -> bool {
    match value {
        Value::Null => false,
        Value::Bool(_) => false,
        Value::Number(_) => false,
        Value::String(_) => false,
        Value::Array(items) => items_have_field(name, items),
        Value::Object(members) => members_have_field(name, members),
    }
}

// Returns whether such a member is in an element of an array.
fn items_have_field(name: &str, items: &[Value]) -> bool {
    for item in items {
        if has_field(name, item) {
            return true;
        }
    }
    false
}

// Returns whether such a member is in an object.
fn members_have_field(name: &str, members: &Map<String, Value>) -> bool {
    for (key, member) in members.iter() {
        if name == key.as_str() || has_field(name, member) {
            return true;
        }
    }
    false
}

/// Takes the strings of the fields of these names in a value, which is within such a field or not.
///
/// Within a field, a boolean and a number are refused, as words that name no entry.
pub(crate) fn take_fields(
    lists: &mut ListReader,
    names: &FieldNames<'_>,
    value: &Value,
    is_within: bool,
) {
    match value {
        Value::Null => {}
        Value::Bool(_) => take_if(lists, "a boolean".as_bytes(), is_within),
        Value::Number(_) => take_if(lists, "a number".as_bytes(), is_within),
        Value::String(text) => take_if(lists, text.as_bytes(), is_within),
        Value::Array(items) => take_items(lists, names, items, is_within),
        Value::Object(members) => take_members(lists, names, members),
    }
}

// Takes a text that is within a field.
fn take_if(lists: &mut ListReader, text: &[u8], is_within: bool) {
    if is_within {
        lists.take_string(text, true);
    }
}

// Takes the strings of the elements of an array, which are within a field or not.
fn take_items(lists: &mut ListReader, names: &FieldNames<'_>, items: &[Value], is_within: bool) {
    for item in items {
        take_fields(lists, names, item, is_within);
    }
}

// Takes the strings of the values of an object, which are within a field if their key is a name.
fn take_members(lists: &mut ListReader, names: &FieldNames<'_>, members: &Map<String, Value>) {
    for (key, member) in members.iter() {
        let is_named = names.has(key.as_str());
        take_fields(lists, names, member, is_named);
    }
}
