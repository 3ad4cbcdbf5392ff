// Written by scripts/plain out of crates/lists/src/encoding.rt

//! Recognizes texts that are not plain text.

/// What a text is that is not plain text, by its bytes.
///
/// ```
/// # use cidr_programs::in_examples::*;
/// assert_eq!(encoding_of(b"\x1f\x8b\x08"), Some(Encoding::Gzip));
/// ```
#[derive(Clone, Copy, Debug, PartialEq, Eq)]
pub enum Encoding {
    /// UTF-8 after a byte order mark.
    ByteOrderMark,
    /// UTF-16 after a byte order mark.
    Utf16,
    /// Data compressed by gzip (RFC 1952).
    Gzip,
    /// A text that has a NUL byte.
    Nul,
}

impl Encoding {
    /// Returns the name of the encoding: `byte order mark`, `UTF-16 text`, `gzip data` or
    /// `NUL byte`.
    ///
    /// ```
    /// # use cidr_programs::in_examples::*;
    /// assert_eq!(Encoding::Utf16.text(), "UTF-16 text");
    /// ```
    pub fn text(self) -> &'static str {
        match self {
            Encoding::ByteOrderMark => "byte order mark",
            Encoding::Utf16 => "UTF-16 text",
            Encoding::Gzip => "gzip data",
            Encoding::Nul => "NUL byte",
        }
    }
}

/// Returns what a text is if it is not plain text, and `None` if it is.
///
/// ```
/// # use cidr_programs::in_examples::*;
/// assert_eq!(encoding_of(b"\xef\xbb\xbf10.0.0.0/8"), Some(Encoding::ByteOrderMark));
/// assert_eq!(encoding_of(b"\xff\xfe1\0"), Some(Encoding::Utf16));
/// assert_eq!(encoding_of(b"10.0.0.0/8"), None);
/// ```
pub fn encoding_of(text: &[u8]) -> Option<Encoding> {
    if begins(text, &[0xEF, 0xBB, 0xBF]) {
        Some(Encoding::ByteOrderMark)
    } else if is_utf16(text) {
        Some(Encoding::Utf16)
    } else if begins(text, &[0x1F, 0x8B]) {
        Some(Encoding::Gzip)
    } else if has_nul(text) {
        Some(Encoding::Nul)
    } else {
        None
    }
}

// Whether the text begins with a byte order mark of UTF-16, of either byte order.
fn is_utf16(text: &[u8]) -> bool {
    begins(text, &[0xFF, 0xFE]) || begins(text, &[0xFE, 0xFF])
}

// Whether the text has a NUL byte.
fn has_nul(text: &[u8]) -> bool {
    text.iter().any(|byte| *byte == 0)
}

// Whether the text begins with these bytes.
fn begins(text: &[u8], first: &[u8]) -> bool {
    text.starts_with(first)
}
