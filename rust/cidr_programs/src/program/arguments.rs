// Written by scripts/plain out of crates/program/src/arguments.rt

//! Reads the arguments of the program.

use fosibegan_core::plain_std::vec::Vec;
use fosibegan_core::plain_std::string::String;
use fosibegan_core::plain_std::rt::Alloc;
use fosibegan_core::plain_std::vec;
use crate::program::escapes::hex_digit;
use fosibegan_core::plain_std::alloc::{AllocError, Global};
use fosibegan_core::plain_std::env;
use fosibegan_core::plain_std::env::{Args, FillError};
use fosibegan_core::plain_std::io::ErrorKind;
use fosibegan_core::plain_std::rt::Env;

/// Why the arguments cannot be read.
///
/// ```
/// # use cidr_programs::in_examples::*;
/// let fault = cidr_programs::program::arguments::ArgumentsFault::NotText;
/// assert!(fault != cidr_programs::program::arguments::ArgumentsFault::OutOfMemory);
/// ```
#[derive(Clone, Copy, Debug, PartialEq, Eq)]
pub enum ArgumentsFault {
    /// An argument is not UTF-8, and one is too long.
    NotText,
    /// Memory ran out.
    OutOfMemory,
}

impl ArgumentsFault {
    /// Returns why the arguments cannot be read, by the kind of the system's error: `OutOfMemory`
    /// if that says so, and `NotText` for any other kind.
    ///
    /// ```
    /// # use cidr_programs::in_examples::*;
    /// use cidr_programs::program::arguments::ArgumentsFault;
    /// use fosibegan_core::plain_std::io::ErrorKind;
    ///
    /// assert_eq!(ArgumentsFault::of(ErrorKind::InvalidData), ArgumentsFault::NotText);
    /// ```
    pub fn of(kind: ErrorKind) -> ArgumentsFault {
        match kind {
            ErrorKind::OutOfMemory => ArgumentsFault::OutOfMemory,
            _ => ArgumentsFault::NotText,
        }
    }
}

/// The most bytes of an argument, of some that are not all UTF-8.
const ARGUMENT_MAX: usize = 1 << 21;

/// Returns the arguments after the program's name, in their order. Each is a `String` of its own,
/// in memory of the program's allocator. An argument that is not UTF-8 is replaced with a word for
/// which `is_stand_in` is true: NUL, and the argument with each byte that is not part of a
/// character as `\xff`. No file can be opened by that word.
///
/// An error is returned if memory runs out, or if an argument is not UTF-8 and one has more than
/// 2,097,152 bytes.
///
/// ```
/// # use cidr_programs::in_examples::*;
/// # let rt = HostRuntime::new();
/// assert!(cidr_programs::program::arguments::arguments(&rt).is_ok());
/// ```
pub fn arguments<R: Env + Alloc<A = Global>>(rt: &R) -> Result<Vec<String>, ArgumentsFault> {
    match env::args(rt) {
        Ok(words) => after_the_first(rt.alloc(), words),
        Err(error) => match ArgumentsFault::of(error.kind()) {
            ArgumentsFault::NotText => arguments_by_bytes(rt),
            fault => Err(fault),
        },
    }
}

/// Whether a word stands for an argument that is not UTF-8: it begins with NUL, which no argument
/// has.
///
/// ```
/// # use cidr_programs::in_examples::*;
/// assert!(cidr_programs::program::arguments::is_stand_in("\0log\\xff"));
/// assert!(!cidr_programs::program::arguments::is_stand_in("log"));
/// ```
pub fn is_stand_in(word: &str) -> bool {
    match word.as_bytes() {
        [first, ..] => *first == 0,
        [] => false,
    }
}

// Returns the words but for the first, the program's name.
fn after_the_first(alloc: Global, mut words: Args) -> Result<Vec<String>, ArgumentsFault> {
    let _program = words.next();
    let mut all = Vec::new(alloc);
    for word in words {
        if all.push(word).is_err() {
            return Err(ArgumentsFault::OutOfMemory);
        }
    }
    Ok(all)
}

// Returns the arguments after the program's name, of which one is not UTF-8.
fn arguments_by_bytes<R: Env + Alloc<A = Global>>(rt: &R) -> Result<Vec<String>, ArgumentsFault> {
    let Ok(mut buffer) = vec![in rt.alloc(); 0u8; ARGUMENT_MAX] else {
        return Err(ArgumentsFault::OutOfMemory);
    };
    let mut all = Vec::new(rt.alloc());
    for at in 1..usize::MAX {
        let bytes = match rt.arg(at, buffer.as_mut_slice()) {
            Ok(len) => &buffer.as_slice()[..len],
            Err(FillError::NotPresent) => break,
            Err(FillError::TooLong) => return Err(ArgumentsFault::NotText),
        };
        let Ok(word) = word_of(rt.alloc(), bytes) else {
            return Err(ArgumentsFault::OutOfMemory);
        };
        if all.push(word).is_err() {
            return Err(ArgumentsFault::OutOfMemory);
        }
    }
    Ok(all)
}

// Returns an argument, or what stands for it.
fn word_of(alloc: Global, bytes: &[u8]) -> Result<String, AllocError> {
    match std::str::from_utf8(bytes) {
        Ok(text) => String::from_str(alloc, text),
        Err(_) => stand_in(alloc, bytes),
    }
}

// Returns what stands for an argument that is not UTF-8.
fn stand_in(alloc: Global, bytes: &[u8]) -> Result<String, AllocError> {
    let mut text = String::from_str(alloc, "\0")?;
    for chunk in bytes.utf8_chunks() {
        text.push_str(chunk.valid())?;
        push_codes(&mut text, chunk.invalid())?;
    }
    Ok(text)
}

// Appends bytes as `\x` and two hexadecimal digits each.
fn push_codes(text: &mut String, bytes: &[u8]) -> Result<(), AllocError> {
    for byte in bytes {
        text.push_str("\\x")?;
        text.push(char::from(hex_digit(*byte / 16)))?;
        text.push(char::from(hex_digit(*byte % 16)))?;
    }
    Ok(())
}
