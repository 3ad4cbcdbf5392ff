// Written by scripts/plain out of crates/lists/src/trimming.rt

//! Trims texts.

/// A kind of bytes: some of the 256.
///
/// ```
/// # use cidr_programs::in_examples::*;
/// // The text after the bytes of a kind.
/// fn behind<K: cidr_programs::lists::ByteKind>(text: &[u8]) -> &[u8] {
///     &text[cidr_programs::lists::front_len::<K>(text)..]
/// }
///
/// assert_eq!(behind::<cidr_programs::lists::Blank>(b" # private"), b"# private".as_slice());
/// ```
pub trait ByteKind {
    /// Whether a byte is of this kind.
    ///
    /// ```
    /// # use cidr_programs::in_examples::*;
    /// use cidr_programs::lists::ByteKind;
    ///
    /// assert!(cidr_programs::lists::Blank::has(b' ') && !cidr_programs::lists::Blank::has(b'#'));
    /// ```
    fn has(byte: u8) -> bool;
}

/// Spaces and tabs.
///
/// ```
/// # use cidr_programs::in_examples::*;
/// assert_eq!(cidr_programs::lists::trim::<cidr_programs::lists::Blank>(b"\t10.0.0.0/8 "), b"10.0.0.0/8".as_slice());
/// ```
pub struct Blank;

impl ByteKind for Blank {
    fn has(byte: u8) -> bool {
        byte == b' ' || byte == b'\t'
    }
}

/// Returns the text without the bytes of a kind around it.
///
/// ```
/// # use cidr_programs::in_examples::*;
/// assert_eq!(cidr_programs::lists::trim::<cidr_programs::lists::Blank>(b" 10.0.0.1 "), b"10.0.0.1".as_slice());
/// ```
pub fn trim<K: ByteKind>(text: &[u8]) -> &[u8] {
    let rest = &text[front_len::<K>(text)..];
    &rest[..rest.len() - end_len::<K>(rest)]
}

/// Returns how many bytes of a kind the text begins with.
///
/// ```
/// # use cidr_programs::in_examples::*;
/// assert_eq!(cidr_programs::lists::front_len::<cidr_programs::lists::Blank>(b"  10.0.0.0/8"), 2);
/// ```
pub fn front_len<K: ByteKind>(text: &[u8]) -> usize {
    let mut count = 0;
    while count < text.len() && K::has(text[count]) {
        count += 1;
    }
    count
}

// Returns how many bytes of a kind the text ends with.
fn end_len<K: ByteKind>(text: &[u8]) -> usize {
    let mut end = text.len();
    while end > 0 && K::has(text[end - 1]) {
        end -= 1;
    }
    text.len() - end
}
