// Written by scripts/plain out of crates/program/src/usage.rt

//! Reports a command line that the program does not accept or cannot read.

use fosibegan_core::plain_std::string::String;
use crate::program::arguments::{ArgumentsFault, is_stand_in};
use crate::program::ending::FAILED;
use crate::program::escapes::tell_escaped_word;
use crate::program::messages::{tell, tell_head, tell_of};
use crate::lines::output::Output;
use fosibegan_core::plain_std::io::Write;

/// Writes a word as messages show it: an empty word as `''`, any other with what
/// `tell_escaped_word` escapes, without the NUL of a word for which `is_stand_in` is true.
///
/// ```
/// # use cidr_programs::in_examples::*;
/// let (mut slice, mut room) = ([0; 16], [0; 2]);
/// let mut errors = cidr_programs::lines::output::Output::new(room.as_mut_slice(), &mut slice);
/// cidr_programs::program::usage::tell_shown(b"", &mut errors);
/// assert_eq!(errors.finish(), Ok(()));
/// drop(errors);
/// assert_eq!(room, *b"''");
/// ```
pub fn tell_shown<E: Write>(word: &[u8], errors: &mut Output<'_, E>) {
    match word {
        [] => tell("''", errors),
        [0, rest @ ..] => tell_escaped_word(rest, errors),
        _ => tell_escaped_word(word, errors),
    }
}

/// Reports why the arguments cannot be read, with the usage if one of them is not UTF-8, and
/// returns the exit status 2.
///
/// ```
/// # use cidr_programs::in_examples::*;
/// use cidr_programs::program::arguments::ArgumentsFault;
/// use cidr_programs::program::usage::refuse_arguments;
///
/// let mut slice = [0; 64];
/// let mut errors = cidr_programs::lines::output::Output::new(Vec::new(Global), &mut slice);
/// let fault = ArgumentsFault::OutOfMemory;
/// assert_eq!(refuse_arguments(fault, "sum", "usage: sum FILE\n", &mut errors), 2);
/// ```
pub fn refuse_arguments<E: Write>(
    fault: ArgumentsFault,
    program: &str,
    usage: &str,
    errors: &mut Output<'_, E>,
) -> u8 {
    match fault {
        ArgumentsFault::NotText => {
            tell_of(program, ": an argument is not UTF-8\n", errors);
            tell(usage, errors);
            FAILED
        }
        ArgumentsFault::OutOfMemory => {
            tell_of(program, ": out of memory\n", errors);
            FAILED
        }
    }
}

/// Reports each word that stands for another that is not UTF-8, and the usage, and returns the exit
/// status 2.
///
/// ```
/// # use cidr_programs::in_examples::*;
/// # ended(|| {
/// use cidr_programs::program::usage::refuse_stand_ins;
///
/// let (mut slice, mut room) = ([0; 64], [b'.'; 64]);
/// let mut errors = cidr_programs::lines::output::Output::new(room.as_mut_slice(), &mut slice);
/// let words = [String::from_str(Global, "\0log\\xff")?];
/// assert_eq!(refuse_stand_ins("sum", &words, "usage: sum FILE\n", &mut errors), 2);
/// assert_eq!(errors.finish(), Ok(()));
/// drop(errors);
/// assert!(room.starts_with(b"sum: log\\xff: not UTF-8\nusage: sum FILE\n"));
/// # Ok(())
/// # });
/// ```
pub fn refuse_stand_ins<E: Write>(
    program: &str,
    words: &[String],
    usage: &str,
    errors: &mut Output<'_, E>,
) -> u8 {
    for word in words {
        if is_stand_in(word.as_str()) {
            tell_head(program, word.as_str(), errors);
            tell(": not UTF-8\n", errors);
        }
    }
    tell(usage, errors);
    FAILED
}
