// Written by scripts/plain out of crates/program/src/telling.rt

//! Reports about lists on the error writer. If the write of one fails, nothing else changes.

use fosibegan_core::plain_std::string::String;
use crate::program::command_line::text_at;
use crate::program::escapes::tell_escaped;
use crate::program::messages::{tell, tell_head, tell_number, tell_of};
use crate::program::usage::tell_shown;
use fosibegan_core::ipnetwork::IpNetwork;
use crate::lines::output::Output;
use crate::lists::{Excerpt, LineForm, ReadFault, Refusal, Refusals, meant, would_take_masks};
use fosibegan_core::plain_std::io::Write;

/// Says where refused lines are, in terms of the words of a command line.
///
/// ```
/// # use cidr_programs::in_examples::*;
/// use cidr_programs::lists::{LineFault, Refusal};
/// use cidr_programs::program::telling::{InLists, Places};
///
/// let refusal = Refusal { list: 2, line: 7, fault: LineFault::Length };
/// assert_eq!(InLists.place(refusal), (2, 7));
/// ```
pub trait Places {
    /// Returns the index of the word that names the place of a refused line, and the number that is
    /// reported with it.
    fn place(&self, refusal: Refusal) -> (usize, u64);
}

/// Places a refused line in the list that a word names, with its line number there.
///
/// ```
/// # use cidr_programs::in_examples::*;
/// use cidr_programs::lists::{LineFault, Refusal};
/// use cidr_programs::program::telling::{InLists, Places};
///
/// let refusal = Refusal { list: 1, line: 12, fault: LineFault::Length };
/// assert_eq!(InLists.place(refusal), (1, 12));
/// ```
#[derive(Clone, Copy, Debug)]
pub struct InLists;

impl Places for InLists {
    fn place(&self, refusal: Refusal) -> (usize, u64) {
        (refusal.list, refusal.line)
    }
}

/// Reports in the name of a program the refused lines of lists in this form: those that were kept,
/// which are the first hundred, and how many more there were.
///
/// ```
/// # use cidr_programs::in_examples::*;
/// use cidr_programs::lists::{LineForm, Refusals};
/// use cidr_programs::program::telling::{InLists, tell_refusals};
///
/// let mut slice = [0; 64];
/// let mut errors = cidr_programs::lines::output::Output::new(Vec::new(Global), &mut slice);
/// tell_refusals("sum", &[], &InLists, LineForm::Plain, &Refusals::new(), &mut errors);
/// assert_eq!(errors.finish(), Ok(()));
/// ```
pub fn tell_refusals<P: Places, E: Write>(
    program: &str,
    words: &[String],
    places: &P,
    form: LineForm,
    refusals: &Refusals,
    errors: &mut Output<'_, E>,
) {
    let kept = refusals.kept();
    for index in 0..kept.len() {
        let text = refusals.excerpt(index);
        tell_refusal(program, words, places, kept[index], &text, errors);
        tell_masks(form, kept[index], &text, errors);
        tell("\n", errors);
    }
    tell_more(program, refusals.more(), errors);
}

// Reports a refused line, which begins with this text, and what would do in its place, without a
// line feed.
fn tell_refusal<P: Places, E: Write>(
    program: &str,
    words: &[String],
    places: &P,
    refusal: Refusal,
    text: &Excerpt,
    errors: &mut Output<'_, E>,
) {
    let (word, number) = places.place(refusal);
    tell_list(program, words, word, errors);
    tell(":", errors);
    tell_number(number, errors);
    tell(": refused ", errors);
    tell(refusal.fault.text(), errors);
    tell_text(text, errors);
    if !text.is_cut() {
        tell_meant(meant(refusal.fault, text.bytes()), errors);
    }
}

// Reports that `--masks` takes a refused line, if it does. Only for plain lists is it an option.
fn tell_masks<E: Write>(
    form: LineForm,
    refusal: Refusal,
    text: &Excerpt,
    errors: &mut Output<'_, E>,
) {
    if matches!(form, LineForm::Plain) && would_take_masks(refusal.fault, text) {
        tell(
            " (--masks takes a mask or wildcard after an address)",
            errors,
        );
    }
}

// Reports the beginning of a text, unless the text is empty.
fn tell_text<E: Write>(text: &Excerpt, errors: &mut Output<'_, E>) {
    if text.bytes().is_empty() {
        return;
    }
    tell(": ", errors);
    tell_escaped(text.bytes(), errors);
    if text.is_cut() {
        tell("..", errors);
    }
}

// Reports the network that is probably meant.
fn tell_meant<E: Write>(network: Option<IpNetwork>, errors: &mut Output<'_, E>) {
    if let Some(network) = network {
        tell(" (write ", errors);
        tell(network.canonical().as_str(), errors);
        tell(")", errors);
    }
}

// Writes the beginning of a message about the list that the word at this index names.
fn tell_list<E: Write>(program: &str, words: &[String], place: usize, errors: &mut Output<'_, E>) {
    tell_head(program, text_at(words, place), errors);
}

/// Reports in the name of a program how many more lines were refused, if there are any.
///
/// ```
/// # use cidr_programs::in_examples::*;
/// let mut slice = [0; 64];
/// let mut errors = cidr_programs::lines::output::Output::new(Vec::new(Global), &mut slice);
/// cidr_programs::program::telling::tell_more("sum", 3, &mut errors);
/// assert_eq!(errors.finish(), Ok(()));
/// ```
pub fn tell_more<E: Write>(program: &str, more: u64, errors: &mut Output<'_, E>) {
    if more > 0 {
        tell_of(program, ": ", errors);
        tell_number(more, errors);
        tell(" more refused lines\n", errors);
    }
}

/// Reports in the name of a program why lists were not read to the end; `fields` are the names of
/// fields of documents.
///
/// ```
/// # use cidr_programs::in_examples::*;
/// let mut slice = [0; 64];
/// let mut errors = cidr_programs::lines::output::Output::new(Vec::new(Global), &mut slice);
/// cidr_programs::program::telling::tell_fault("sum", &[], &[], cidr_programs::lists::ReadFault::OutOfMemory, &mut errors);
/// assert_eq!(errors.finish(), Ok(()));
/// ```
pub fn tell_fault<E: Write>(
    program: &str,
    words: &[String],
    fields: &[String],
    fault: ReadFault,
    errors: &mut Output<'_, E>,
) {
    match fault {
        ReadFault::Open(place, cause) => {
            tell_list(program, words, place, errors);
            tell(cause.text(), errors);
        }
        ReadFault::Read(place) => {
            tell_list(program, words, place, errors);
            tell(": cannot read\n", errors);
        }
        ReadFault::Length(place) => {
            tell_list(program, words, place, errors);
            tell(": more than 1,073,741,824 bytes\n", errors);
        }
        ReadFault::NotJson(place, _, Some(encoding)) => {
            tell_list(program, words, place, errors);
            tell_of(": not JSON, but ", encoding.text(), errors);
            tell("\n", errors);
        }
        ReadFault::NotJson(place, line, None) => {
            tell_list(program, words, place, errors);
            tell(":", errors);
            tell_number(line, errors);
            tell(": not JSON, or more than 127 levels\n", errors);
        }
        ReadFault::Cut(place) => {
            tell_list(program, words, place, errors);
            tell(
                ": no line feed at its end; it may have been cut off\n",
                errors,
            );
        }
        ReadFault::NoField(place, field) => {
            tell_list(program, words, place, errors);
            tell(": no field ", errors);
            tell_shown(text_at(fields, field).as_bytes(), errors);
            tell("\n", errors);
        }
        ReadFault::OutOfMemory => tell_of(program, ": out of memory\n", errors),
    }
}
