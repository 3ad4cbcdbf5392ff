// Written by scripts/plain out of crates/cidr_merge/src/dashes.rt

//! The words of a command line.

use fosibegan_core::plain_std::string::String;
use cidr_programs::program::command_line::is;

/// Returns the index of the first word equal to this text, or the number of words if there is none.
pub(crate) fn place_of(words: &[String], text: &str) -> usize {
    let mut place = 0;
    while place < words.len() && !is(&words[place], text) {
        place += 1;
    }
    place
}

/// Returns the words before the first `--`.
pub(crate) fn before_dashes(words: &[String]) -> &[String] {
    &words[..place_of(words, "--")]
}

/// Returns the words after the first `--`.
pub(crate) fn behind_dashes(words: &[String]) -> &[String] {
    let place = place_of(words, "--");
    if place < words.len() {
        &words[place + 1..]
    } else {
        &words[place..]
    }
}
