// Written by scripts/plain out of crates/program/src/messages.rt

//! Messages on the error writer. If the write of one fails, nothing else changes.

use crate::program::usage::tell_shown;
use fosibegan_core::plain_std::arrayvec::ArrayString;
use fosibegan_core::ipnetwork_addr::decimal::push_number;
use crate::lines::output::Output;
use fosibegan_core::plain_std::io::Write;

/// Writes a text to the error writer. If that fails, now or earlier, the text is lost, and nothing
/// else happens.
///
/// ```
/// # use cidr_programs::in_examples::*;
/// let mut slice = [0; 64];
/// let mut errors = cidr_programs::lines::output::Output::new(Vec::new(Global), &mut slice);
/// cidr_programs::program::messages::tell("out of memory\n", &mut errors);
/// assert_eq!(errors.finish(), Ok(()));
/// ```
pub fn tell<E: Write>(text: &str, errors: &mut Output<'_, E>) {
    tell_bytes(text.as_bytes(), errors);
}

/// Writes bytes to the error writer, as `tell` writes a text.
///
/// ```
/// # use cidr_programs::in_examples::*;
/// let mut slice = [0; 64];
/// let mut errors = cidr_programs::lines::output::Output::new(Vec::new(Global), &mut slice);
/// cidr_programs::program::messages::tell_bytes(b"10.0.0.0/8", &mut errors);
/// assert_eq!(errors.finish(), Ok(()));
/// ```
pub fn tell_bytes<E: Write>(bytes: &[u8], errors: &mut Output<'_, E>) {
    let _ = errors.put(bytes);
}

/// Writes a name, followed by a text, to the error writer.
///
/// ```
/// # use cidr_programs::in_examples::*;
/// let mut slice = [0; 64];
/// let mut errors = cidr_programs::lines::output::Output::new(Vec::new(Global), &mut slice);
/// cidr_programs::program::messages::tell_of("sum", ": out of memory\n", &mut errors);
/// assert_eq!(errors.finish(), Ok(()));
/// ```
pub fn tell_of<E: Write>(name: &str, text: &str, errors: &mut Output<'_, E>) {
    tell(name, errors);
    tell(text, errors);
}

/// Writes the beginning of a message to the error writer: the program's name, `: ` and the name of
/// what the message is about, as messages show words: an empty name as `''`, any other with
/// control characters escaped.
///
/// ```
/// # use cidr_programs::in_examples::*;
/// let mut slice = [0; 64];
/// let mut errors = cidr_programs::lines::output::Output::new(Vec::new(Global), &mut slice);
/// cidr_programs::program::messages::tell_head("sum", "log", &mut errors);
/// assert_eq!(errors.finish(), Ok(()));
/// ```
pub fn tell_head<E: Write>(program: &str, name: &str, errors: &mut Output<'_, E>) {
    tell_of(program, ": ", errors);
    tell_shown(name.as_bytes(), errors);
}

/// Writes a number in decimal to the error writer.
///
/// ```
/// # use cidr_programs::in_examples::*;
/// let mut slice = [0; 64];
/// let mut errors = cidr_programs::lines::output::Output::new(Vec::new(Global), &mut slice);
/// cidr_programs::program::messages::tell_number(1024, &mut errors);
/// assert_eq!(errors.finish(), Ok(()));
/// ```
pub fn tell_number<E: Write>(number: u64, errors: &mut Output<'_, E>) {
    tell(number_text(number).as_str(), errors);
}

/// Returns a number in decimal.
///
/// ```
/// # use cidr_programs::in_examples::*;
/// assert_eq!(cidr_programs::program::messages::number_text(1024).as_str(), "1024");
/// ```
pub fn number_text(number: u64) -> ArrayString<40> {
    let mut text = ArrayString::new();
    push_number(&mut text, u128::from(number));
    text
}
