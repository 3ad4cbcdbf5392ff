// Written by scripts/plain out of crates/line_addresses/src/place.rt

//! Which field or word of a line.

use crate::line_addresses::field::field_of;
use crate::line_addresses::from_end::{field_from_end, word_from_end};
use crate::line_addresses::numbers::ordinal_in;
use crate::line_addresses::word::word_of;
use fosibegan_core::plain_std::arrayvec::ArrayString;
use fosibegan_core::ipnetwork_addr::decimal::push_number;

/// Which of the fields or words of a line.
///
/// ```
/// # use cidr_programs::in_examples::*;
/// assert_eq!(Place::read(b"7"), Some(Place::Number(7)));
/// assert_eq!(part_of(&Part::Word(Place::FromEnd(1)), b"a b  c "), Some(b"c".as_slice()));
/// ```
#[derive(Clone, Copy, Debug, PartialEq, Eq)]
pub enum Place {
    /// The one with this number, from 1 on.
    Number(u32),
    /// The one with this number, from 1 on, counted from the end of the line.
    FromEnd(u32),
}

impl Place {
    /// Returns the place that a text names, or `None` if it names none. After `-` the number counts
    /// from the end; it must be one from 1 to 4,294,967,295.
    ///
    /// ```
    /// # use cidr_programs::in_examples::*;
    /// assert_eq!(Place::read(b"07"), Some(Place::Number(7)));
    /// assert_eq!(Place::read(b"-1"), Some(Place::FromEnd(1)));
    /// assert_eq!(Place::read(b"-0"), None);
    /// ```
    pub fn read(text: &[u8]) -> Option<Place> {
        if let [b'-', number @ ..] = text {
            return match ordinal_in(number) {
                Some(number) => Some(Place::FromEnd(number)),
                None => None,
            };
        }
        match ordinal_in(text) {
            Some(number) => Some(Place::Number(number)),
            None => None,
        }
    }

    /// Returns the text of the place, which `read` reads.
    ///
    /// ```
    /// # use cidr_programs::in_examples::*;
    /// assert_eq!(Place::Number(7).text().as_str(), "7");
    /// ```
    pub fn text(self) -> ArrayString<40> {
        let mut text = ArrayString::new();
        match self {
            Place::Number(number) => push_number(&mut text, u128::from(number)),
            Place::FromEnd(number) => {
                text.push('-');
                push_number(&mut text, u128::from(number));
            }
        }
        text
    }
}

/// Returns the field at this place of a line that is split at each separator, or `None` if the line
/// has fewer fields.
#[inline(always)]
pub(crate) fn field_at_place(line: &[u8], place: Place, separator: u8) -> Option<&[u8]> {
    match place {
        Place::Number(number) => field_of(line, number, separator),
        Place::FromEnd(number) => field_from_end(line, number, separator),
    }
}

/// Returns the word at this place of a line, or `None` if the line has fewer words.
#[inline(always)]
pub(crate) fn word_at_place(line: &[u8], place: Place) -> Option<&[u8]> {
    match place {
        Place::Number(number) => word_of(line, number),
        Place::FromEnd(number) => word_from_end(line, number),
    }
}
