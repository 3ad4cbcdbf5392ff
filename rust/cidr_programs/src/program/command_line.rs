// Written by scripts/plain out of crates/program/src/command_line.rt

//! The words of a command line.

use fosibegan_core::plain_std::string::String;

/// Whether the word is this text.
///
/// ```
/// # use cidr_programs::in_examples::*;
/// # ended(|| {
/// let mut word = String::new(Global);
/// word.push_str("--help")?;
/// assert!(cidr_programs::program::command_line::is(&word, "--help"));
/// # Ok(())
/// # });
/// ```
pub fn is(word: &String, text: &str) -> bool {
    word.as_str() == text
}

/// Whether there is exactly one word, and it is this text.
pub(crate) fn is_only(words: &[String], text: &str) -> bool {
    words.len() == 1 && is(&words[0], text)
}

/// Returns how many of the words are this text.
///
/// ```
/// # use cidr_programs::in_examples::*;
/// assert_eq!(cidr_programs::program::command_line::count_of(&[], "-"), 0);
/// ```
pub fn count_of(words: &[String], text: &str) -> usize {
    let mut count = 0;
    for word in words {
        if is(word, text) {
            count += 1;
        }
    }
    count
}

/// Returns the word at this index, or an empty text if there is no such word.
///
/// ```
/// # use cidr_programs::in_examples::*;
/// assert_eq!(cidr_programs::program::command_line::text_at(&[], 0), "");
/// ```
pub fn text_at(words: &[String], place: usize) -> &str {
    if let Some(word) = words.get(place) {
        word.as_str()
    } else {
        ""
    }
}
