//! Reads JSON (RFC 8259) for its strings, in the place of the crate `serde_json`.
//!
//! It refuses what `serde_json` refuses, at the same line, and gives the same values in the same order, but that of a
//! number is checked and not kept. A string or a key without escapes is a part of the document. The memory that is asked
//! for is at most 40 bytes for each byte of the document, and a lack of it is an error.

use crate::plain_std::alloc::{AllocError, Global};
use crate::plain_std::string::String;
use core::fmt;
use core::marker::PhantomData;
use rust_alloc::boxed::Box;

mod reader;
#[cfg(test)]
mod tests;
mod texts;

pub use texts::Text;

/// A value of a document.
#[derive(Debug, PartialEq)]
pub enum Value<'a> {
    Null,
    Bool(bool),
    Number(Number),
    String(Text<'a>),
    /// The elements of an array.
    Array(Box<[Value<'a>]>),
    /// The members of an object.
    Object(Map<String, Value<'a>>),
}

/// A number that the range of `f64` holds. Which one is not kept.
#[derive(Debug, PartialEq)]
pub struct Number(());

/// Values that have keys in an object.
pub trait HasKey {
    type Key: fmt::Debug + PartialEq;
}

impl<'a> HasKey for Value<'a> {
    type Key = Text<'a>;
}

/// The members of an object, in the order of their keys. If a key occurs more than once, only its last value is here.
#[derive(Debug, PartialEq)]
pub struct Map<K, V: HasKey> {
    members: Box<[(V::Key, V)]>,
    keys: PhantomData<fn() -> K>,
}

impl<K, V: HasKey> Map<K, V> {
    /// The keys and values.
    pub fn iter(&self) -> impl Iterator<Item = (&V::Key, &V)> {
        self.members.iter().map(|(key, value)| (key, value))
    }
}

impl<'a> Value<'a> {
    /// The value of this document.
    pub fn from_slice(_: Global, text: &'a [u8]) -> Result<Self, Error> {
        reader::Reader::new(text).document()
    }

    /// The value of this document.
    pub fn from_str(alloc: Global, text: &'a str) -> Result<Self, Error> {
        Value::from_slice(alloc, text.as_bytes())
    }
}

/// Why there is no value: the document is not JSON, with the line that is wrong, or memory ran out.
#[derive(Debug, PartialEq, Eq)]
pub struct Error(Option<usize>);

impl Error {
    /// Whether memory ran out.
    pub fn is_memory(&self) -> bool {
        self.0.is_none()
    }

    /// The line of the document that is wrong, counted from 1.
    pub fn line(&self) -> usize {
        self.0.unwrap_or(0)
    }
}

impl fmt::Display for Error {
    fn fmt(&self, f: &mut fmt::Formatter<'_>) -> fmt::Result {
        match self.0 {
            Some(line) => write!(f, "not JSON at line {line}"),
            None => AllocError.fmt(f),
        }
    }
}

impl core::error::Error for Error {}

impl From<AllocError> for Error {
    fn from(_: AllocError) -> Self {
        Error(None)
    }
}
