// Written by scripts/plain out of crates/line_addresses/src/part.rt

//! A part of a line.

use crate::line_addresses::area::Part;
use crate::line_addresses::place::{field_at_place, word_at_place};
use crate::line_addresses::value::value_after;

/// Returns this part of a line, or `None` if the line does not have it.
///
/// ```
/// # use cidr_programs::in_examples::*;
/// let line = b"a,10.1.1.1";
/// let second = Place::Number(2);
/// assert_eq!(part_of(&Part::Field { place: second, separator: b',' }, line), Some(b"10.1.1.1".as_slice()));
/// assert_eq!(part_of(&Part::Word(second), line), None);
/// ```
#[inline(always)]
pub fn part_of<'a>(part: &Part<'_>, line: &'a [u8]) -> Option<&'a [u8]> {
    match part {
        Part::Line => Some(line),
        Part::Field { place, separator } => field_at_place(line, *place, *separator),
        Part::Word(place) => word_at_place(line, *place),
        Part::After(text) => value_after(line, text.bytes()),
    }
}
