//! Reads the documents of `rows`, and some that are long.

use super::Value;
use crate::plain_std::alloc::Global;
use rust_alloc::string::String;
use rust_alloc::vec::Vec;

mod rows;

/// The strings of a value, in their order.
fn strings<'a>(value: &'a Value<'_>, found: &mut Vec<&'a str>) {
    match value {
        Value::String(text) => found.push(text.as_str()),
        Value::Array(items) => items.iter().for_each(|item| strings(item, found)),
        Value::Object(members) => members.iter().for_each(|(_, member)| strings(member, found)),
        Value::Null | Value::Bool(_) | Value::Number(_) => {}
    }
}

/// The strings of a document, each in brackets, or the line that is wrong.
fn read(document: &[u8]) -> Result<String, usize> {
    let value = Value::from_slice(Global, document).map_err(|error| error.line())?;
    let mut found = Vec::new();
    strings(&value, &mut found);
    Ok(bracketed(&found))
}

fn bracketed(texts: &[&str]) -> String {
    texts.iter().flat_map(|text| ["[", text, "]"]).collect()
}

/// Arrays in one another around this text.
fn nested(levels: usize, inner: &str) -> Vec<u8> {
    ["[".repeat(levels).as_str(), inner, "]".repeat(levels).as_str()].concat().into_bytes()
}

#[test]
fn documents() {
    for (document, strings) in rows::READ {
        assert_eq!(read(document), Ok(bracketed(strings)), "{}", document.escape_ascii());
    }
    assert_eq!(read(&nested(127, "\"a\"")).as_deref(), Ok("[a]"));
    assert_eq!(read(["9".repeat(308).as_str(), " "].concat().as_bytes()).as_deref(), Ok(""));
}

#[test]
fn lines_of_what_is_refused() {
    for (document, line) in rows::REFUSED {
        assert_eq!(read(document), Err(*line), "{}", document.escape_ascii());
    }
    assert_eq!(read(&nested(128, "")), Err(1));
    assert_eq!(read(&nested(1_000_000, "")), Err(1));
    assert_eq!(read("{\"\":\n".repeat(128).as_bytes()), Err(128));
    assert_eq!(read("9".repeat(400).as_bytes()), Err(1));
}
