// Written by scripts/plain out of crates/cidr_merge/src/numbered_lines.rt

//! An iterator over the lines of lists, with their numbers.

use fosibegan_core::plain_std::vec::Vec;
use fosibegan_core::plain_std::string::String;
use crate::text_lines::TextLines;
use crate::texts::WholeLists;
use cidr_programs::program::command_line::text_at;

/// A line of a list.
#[derive(Clone, Copy, Debug)]
pub(crate) struct Line<'a> {
    /// The index of the list among the lists.
    pub list: usize,
    /// The name of the list.
    pub name: &'a str,
    /// The number of the line, from 1.
    pub number: usize,
    /// The line, without its line ending.
    pub text: &'a [u8],
}

/// The lines of lists that are still to come.
pub(crate) struct NumberedLines<'a> {
    // The names of all lists.
    names: &'a [String],
    // The bytes of the lists after the current one; the first of them has the index `next`.
    texts: &'a [Vec<u8>],
    next: usize,
    // The index of the current list, how many of its lines were returned, and its other lines.
    list: usize,
    number: usize,
    lines: TextLines<'a>,
}

impl<'a> NumberedLines<'a> {
    /// Returns an iterator over all lines of lists.
    pub(crate) fn of(lists: &WholeLists<'a>) -> NumberedLines<'a> {
        NumberedLines {
            names: lists.names,
            texts: lists.texts,
            next: 0,
            list: 0,
            number: 0,
            lines: TextLines::of(b"".as_slice()),
        }
    }

    /// Returns the next line.
    pub(crate) fn next(&mut self) -> Option<Line<'a>> {
        'lists: loop {
            if let Some(text) = self.lines.next() {
                self.number += 1;
                return Some(Line {
                    list: self.list,
                    name: text_at(self.names, self.list),
                    number: self.number,
                    text,
                });
            }
            let Some((text, texts)) = self.texts.split_first() else {
                return None;
            };
            self.texts = texts;
            self.list = self.next;
            self.next += 1;
            self.number = 0;
            self.lines = TextLines::of(text.as_slice());
        }
    }
}
