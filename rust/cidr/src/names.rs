// Written by scripts/plain out of crates/cidr/src/names.rt

//! The names of the ten commands.

/// Returns whether a word is `read`.
pub(crate) fn is_read(word: &[u8]) -> bool {
    matches!(word, b"read")
}

/// Returns whether a word is `ends`.
pub(crate) fn is_ends(word: &[u8]) -> bool {
    matches!(word, b"ends")
}

/// Returns whether a word is `read4`.
pub(crate) fn is_read4(word: &[u8]) -> bool {
    matches!(word, b"read4")
}

/// Returns whether a word is `read6`.
pub(crate) fn is_read6(word: &[u8]) -> bool {
    matches!(word, b"read6")
}

/// Returns whether a word is `drop`.
pub(crate) fn is_drop(word: &[u8]) -> bool {
    matches!(word, b"drop")
}

/// Returns whether a word is `find`.
pub(crate) fn is_find(word: &[u8]) -> bool {
    matches!(word, b"find")
}

/// Returns whether a word is `has`.
pub(crate) fn is_has(word: &[u8]) -> bool {
    matches!(word, b"has")
}

/// Returns whether a word is `rel`.
pub(crate) fn is_rel(word: &[u8]) -> bool {
    matches!(word, b"rel")
}

/// Returns whether a word is `has4`.
pub(crate) fn is_has4(word: &[u8]) -> bool {
    matches!(word, b"has4")
}

/// Returns whether a word is `add`.
pub(crate) fn is_add(word: &[u8]) -> bool {
    matches!(word, b"add")
}
