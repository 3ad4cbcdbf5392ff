//! The crate `serde_json`, with the calls that the sources make of their own one.

pub use serde_json::Value;

use crate::plain_std::alloc::{AllocError, Global};
use crate::plain_std::string::String;
use crate::plain_std::vec::Vec;
use core::fmt;

/// The members of an object, named by the types of its keys and values.
pub type Map<K, V> = <(K, V) as Members>::Map;

/// Which map has members of these types.
#[doc(hidden)]
pub trait Members {
    /// The map.
    type Map;
}

impl Members for (String, Value) {
    type Map = serde_json::Map<rust_alloc::string::String, Value>;
}

/// Why there is no value: the document is none, or memory ran out before `serde_json` was called.
#[derive(Debug)]
pub struct Error(Option<serde_json::Error>);

impl Error {
    /// Whether memory ran out.
    pub fn is_memory(&self) -> bool {
        self.0.is_none()
    }

    /// The line of the document that is wrong, counted from 1.
    pub fn line(&self) -> usize {
        self.0.as_ref().map_or(0, serde_json::Error::line)
    }
}

impl fmt::Display for Error {
    fn fmt(&self, f: &mut fmt::Formatter<'_>) -> fmt::Result {
        match &self.0 {
            Some(error) => error.fmt(f),
            None => AllocError.fmt(f),
        }
    }
}

impl core::error::Error for Error {}

impl From<AllocError> for Error {
    fn from(_: AllocError) -> Self {
        Error(None)
    }
}

/// The value of this document.
pub fn from_str<T: From<Value>>(alloc: Global, text: &str) -> Result<T, Error> {
    Value::from_str(alloc, text).map(T::from)
}

/// An object of these members.
#[doc(hidden)]
#[macro_export]
macro_rules! plain_json {
    (in $alloc:expr; {$($name:literal: $value:expr),*}) => {
        $crate::plain_std::serde_json::object($alloc, [$(($name, $value.into())),*])
    };
}

#[doc(hidden)]
pub use crate::plain_json as json;

#[doc(hidden)]
pub fn object<const N: usize>(_: Global, members: [(&str, Value); N]) -> Result<Value, AllocError> {
    Ok(Value::Object(members.map(|(name, value)| (name.into(), value)).into_iter().collect()))
}

impl From<Vec<Value>> for Value {
    fn from(items: Vec<Value>) -> Self {
        Value::Array(items.into_iter().collect())
    }
}

/// Calls that name an allocator. Where `serde_json` itself has no memory, the program ends.
pub trait OfKit: Sized {
    /// The string value of this text.
    fn try_from_str(alloc: Global, text: &str) -> Result<Self, AllocError>;
    /// The value of this document.
    fn from_str(alloc: Global, text: &str) -> Result<Self, Error>;
    /// The value of this document.
    fn from_slice(alloc: Global, text: &[u8]) -> Result<Self, Error>;
}

impl OfKit for Value {
    fn try_from_str(_: Global, text: &str) -> Result<Value, AllocError> {
        let mut made = rust_alloc::string::String::new();
        made.try_reserve_exact(text.len())?;
        made.push_str(text);
        Ok(Value::String(made))
    }

    fn from_str(alloc: Global, text: &str) -> Result<Value, Error> {
        Value::from_slice(alloc, text.as_bytes())
    }

    fn from_slice(_: Global, text: &[u8]) -> Result<Value, Error> {
        serde_json::from_slice(text).map_err(|error| Error(Some(error)))
    }
}
