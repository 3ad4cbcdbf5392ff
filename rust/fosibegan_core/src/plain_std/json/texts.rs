//! The strings of a document.

use crate::plain_std::alloc::AllocError;
use core::cmp::Ordering;
use rust_alloc::boxed::Box;
use rust_alloc::string::String;

/// A string: a part of the document, or, if it has escapes, the text that they stand for.
#[derive(Debug, PartialEq, Eq)]
pub enum Text<'a> {
    Part(&'a str),
    Made(Box<str>),
}

impl<'a> Text<'a> {
    /// The text of what is between the quotes, which was found to be valid.
    pub(super) fn of(quoted: &'a str) -> Result<Self, AllocError> {
        if !quoted.contains('\\') {
            return Ok(Text::Part(quoted));
        }
        let mut made = String::new();
        made.try_reserve_exact(chars(quoted).map(char::len_utf8).sum())?;
        made.extend(chars(quoted));
        Ok(Text::Made(made.into_boxed_str()))
    }

    /// The text.
    pub fn as_str(&self) -> &str {
        match self {
            Text::Part(text) => text,
            Text::Made(text) => text,
        }
    }

    /// The bytes of the text.
    pub fn as_bytes(&self) -> &[u8] {
        self.as_str().as_bytes()
    }
}

/// The order of two keys by their texts, of what is between their quotes.
pub(super) fn order(one: &str, other: &str) -> Ordering {
    if one.contains('\\') || other.contains('\\') {
        chars(one).cmp(chars(other))
    } else {
        one.cmp(other)
    }
}

/// The characters of a text with escapes, which was found to be valid.
fn chars(quoted: &str) -> impl Iterator<Item = char> + '_ {
    let mut rest = quoted.chars();
    core::iter::from_fn(move || match rest.next()? {
        '\\' => Some(match rest.next()? {
            'b' => '\u{8}',
            'f' => '\u{c}',
            'n' => '\n',
            'r' => '\r',
            't' => '\t',
            'u' => coded(&mut rest),
            other => other,
        }),
        other => Some(other),
    })
}

/// The character of the hexadecimal digits after `\u`, with those of the second half if these are a first half.
fn coded(rest: &mut core::str::Chars<'_>) -> char {
    let code = four_digits(rest);
    let code = match code {
        0xD800..=0xDBFF => {
            rest.next();
            rest.next();
            0x10000 + ((code - 0xD800) << 10) + (four_digits(rest) & 0x3FF)
        }
        _ => code,
    };
    char::from_u32(code).unwrap_or(char::REPLACEMENT_CHARACTER)
}

fn four_digits(rest: &mut core::str::Chars<'_>) -> u32 {
    rest.take(4).fold(0, |code, digit| code << 4 | digit.to_digit(16).unwrap_or(0))
}
