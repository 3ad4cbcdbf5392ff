// Written by scripts/plain out of crates/cidr_join/src/value.rt

//! The value of a network of a list.

/// The value of a network of a list: the text that follows it in its line.
#[derive(Clone, Copy, Debug)]
pub struct Value<'a> {
    bytes: &'a [u8],
}

impl<'a> Value<'a> {
    /// Creates a value of these bytes.
    pub(crate) fn new(bytes: &'a [u8]) -> Value<'a> {
        Value { bytes }
    }

    /// Returns its bytes.
    pub(crate) fn bytes(self) -> &'a [u8] {
        self.bytes
    }
}
