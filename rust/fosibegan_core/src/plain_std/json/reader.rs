//! The reader of a document, which goes over its bytes once.

use super::{Error, Map, Number, Text, Value, texts};
use crate::plain_std::alloc::AllocError;
use core::marker::PhantomData;
use rust_alloc::boxed::Box;
use rust_alloc::vec::Vec;

/// The most arrays and objects in one another.
const LEVELS: usize = 127;

/// A text of so many bytes without an exponent is no number out of range.
const LENGTH_IN_RANGE: usize = 300;

/// A member of an object that is being read. The key is what is between its quotes.
struct Member<'a> {
    key: &'a str,
    value: Value<'a>,
}

impl Member<'_> {
    fn has_same_key(&self, other: &Self) -> bool {
        texts::order(self.key, other.key).is_eq()
    }
}

pub(super) struct Reader<'a> {
    bytes: &'a [u8],
    at: usize,
    /// How many arrays and objects are open, and what was kept of them so far, the innermost last.
    levels: usize,
    items: Vec<Value<'a>>,
    members: Vec<Member<'a>>,
}

impl<'a> Reader<'a> {
    pub(super) fn new(bytes: &'a [u8]) -> Self {
        Reader { bytes, at: 0, levels: 0, items: Vec::new(), members: Vec::new() }
    }

    pub(super) fn document(&mut self) -> Result<Value<'a>, Error> {
        let value = self.value()?;
        match self.next_after_blanks() {
            None => Ok(value),
            Some(_) => Err(self.refused()),
        }
    }

    /// The error of the byte that is next, or of the end. If the byte is a line feed, the line is the one after it.
    fn refused(&self) -> Error {
        let end = self.bytes.len().min(self.at + 1);
        Error(Some(1 + self.bytes[..end].iter().filter(|&&byte| byte == b'\n').count()))
    }

    fn next(&self) -> Option<u8> {
        self.bytes.get(self.at).copied()
    }

    fn next_after_blanks(&mut self) -> Option<u8> {
        while let Some(b' ' | b'\t' | b'\n' | b'\r') = self.next() {
            self.at += 1;
        }
        self.next()
    }

    /// Goes over the byte that is next if it is this one.
    fn takes(&mut self, byte: u8) -> bool {
        let is_next = self.next() == Some(byte);
        self.at += usize::from(is_next);
        is_next
    }

    fn value(&mut self) -> Result<Value<'a>, Error> {
        match self.next_after_blanks() {
            Some(b'n') => self.word("null", Value::Null),
            Some(b't') => self.word("true", Value::Bool(true)),
            Some(b'f') => self.word("false", Value::Bool(false)),
            Some(b'-' | b'0'..=b'9') => self.number(),
            Some(b'"') => Ok(Value::String(Text::of(self.quoted()?)?)),
            Some(b'[') => self.level(Self::array),
            Some(b'{') => self.level(Self::object),
            _ => Err(self.refused()),
        }
    }

    fn word(&mut self, word: &str, value: Value<'a>) -> Result<Value<'a>, Error> {
        match word.bytes().all(|byte| self.takes(byte)) {
            true => Ok(value),
            false => Err(self.refused()),
        }
    }

    /// Reads an array or an object by `read`, unless too many are open.
    fn level(&mut self, read: impl FnOnce(&mut Self) -> Result<Value<'a>, Error>) -> Result<Value<'a>, Error> {
        if self.levels == LEVELS {
            return Err(self.refused());
        }
        self.levels += 1;
        self.at += 1;
        let value = read(self);
        self.levels -= 1;
        value
    }

    /// Whether there is another element or member before the byte `close`, after the comma if it is not the first.
    fn goes_on(&mut self, close: u8, is_first: bool) -> Result<bool, Error> {
        if self.next_after_blanks() == Some(close) {
            self.at += 1;
            return Ok(false);
        }
        if !is_first {
            if !self.takes(b',') {
                return Err(self.refused());
            }
            if self.next_after_blanks() == Some(close) {
                return Err(self.refused());
            }
        }
        Ok(true)
    }

    fn array(&mut self) -> Result<Value<'a>, Error> {
        let start = self.items.len();
        let mut is_first = true;
        while self.goes_on(b']', is_first)? {
            is_first = false;
            let item = self.value()?;
            self.items.try_reserve(1).map_err(AllocError::from)?;
            self.items.push(item);
        }
        let count = self.items.len() - start;
        Ok(Value::Array(exactly(count, self.items.drain(start..))?))
    }

    fn object(&mut self) -> Result<Value<'a>, Error> {
        let start = self.members.len();
        let mut is_first = true;
        while self.goes_on(b'}', is_first)? {
            is_first = false;
            if self.next() != Some(b'"') {
                return Err(self.refused());
            }
            let key = self.quoted()?;
            if self.next_after_blanks() != Some(b':') {
                return Err(self.refused());
            }
            self.at += 1;
            let value = self.value()?;
            self.members.try_reserve(1).map_err(AllocError::from)?;
            self.members.push(Member { key, value });
        }
        sort(&mut self.members[start..]);
        let repeated = self.members[start..].windows(2).filter(|pair| pair[0].has_same_key(&pair[1])).count();
        let count = self.members.len() - start - repeated;
        let mut members: Vec<(Text<'a>, Value<'a>)> = Vec::new();
        members.try_reserve_exact(count).map_err(AllocError::from)?;
        let mut last = None;
        for member in self.members.drain(start..) {
            // Of a key that occurs more than once, only the last member keeps its value.
            match members.last_mut() {
                Some(place) if matches!(last, Some(key) if texts::order(key, member.key).is_eq()) => {
                    place.1 = member.value;
                }
                _ => members.push((Text::of(member.key)?, member.value)),
            }
            last = Some(member.key);
        }
        Ok(Value::Object(Map { members: members.into_boxed_slice(), keys: PhantomData }))
    }

    /// What is between the quote that is next and the one that ends its string.
    fn quoted(&mut self) -> Result<&'a str, Error> {
        let start = self.at + 1;
        self.at = start;
        loop {
            self.at += self.bytes[self.at..].iter().take_while(|&&byte| is_plain(byte)).count();
            match self.next() {
                Some(b'"') => break,
                Some(b'\\') => self.escape()?,
                _ => return Err(self.refused()),
            }
        }
        let Ok(text) = core::str::from_utf8(&self.bytes[start..self.at]) else {
            return Err(self.refused());
        };
        self.at += 1;
        Ok(text)
    }

    /// Goes over the escape that is next.
    fn escape(&mut self) -> Result<(), Error> {
        self.at += 1;
        match self.next() {
            Some(b'"' | b'\\' | b'/' | b'b' | b'f' | b'n' | b'r' | b't') => {
                self.at += 1;
                return Ok(());
            }
            Some(b'u') => self.at += 1,
            _ => return Err(self.refused()),
        }
        match self.four_digits()? {
            0xD800..=0xDBFF => {}
            0xDC00..=0xDFFF => return Err(self.refused_before()),
            _ => return Ok(()),
        }
        // A second half has to follow the first one.
        if !self.takes(b'\\') || !self.takes(b'u') {
            return Err(self.refused());
        }
        match self.four_digits()? {
            0xDC00..=0xDFFF => Ok(()),
            _ => Err(self.refused_before()),
        }
    }

    /// The error of the byte before.
    fn refused_before(&mut self) -> Error {
        self.at -= 1;
        self.refused()
    }

    fn four_digits(&mut self) -> Result<u32, Error> {
        if self.bytes.len() - self.at < 4 {
            self.at = self.bytes.len();
            return Err(self.refused());
        }
        let mut code = 0;
        for _ in 0..4 {
            let Some(digit) = self.next().and_then(|byte| char::from(byte).to_digit(16)) else {
                return Err(self.refused());
            };
            code = code << 4 | digit;
            self.at += 1;
        }
        Ok(code)
    }

    fn number(&mut self) -> Result<Value<'a>, Error> {
        let start = self.at;
        self.takes(b'-');
        if self.takes(b'0') {
            if matches!(self.next(), Some(b'0'..=b'9')) {
                return Err(self.refused());
            }
        } else {
            self.digits()?;
        }
        if self.takes(b'.') {
            self.digits()?;
        }
        let has_exponent = self.takes(b'e') || self.takes(b'E');
        if has_exponent {
            let _ = self.takes(b'+') || self.takes(b'-');
            self.digits()?;
        }
        let text = &self.bytes[start..self.at];
        if (has_exponent || text.len() > LENGTH_IN_RANGE) && is_out_of_range(text) {
            return Err(self.refused_before());
        }
        Ok(Value::Number(Number(())))
    }

    /// Goes over one digit or more.
    fn digits(&mut self) -> Result<(), Error> {
        let count = self.bytes[self.at..].iter().take_while(|byte| byte.is_ascii_digit()).count();
        self.at += count;
        match count {
            0 => Err(self.refused()),
            _ => Ok(()),
        }
    }
}

/// Whether a byte of a string is itself, or a part of a character.
fn is_plain(byte: u8) -> bool {
    byte >= b' ' && byte != b'"' && byte != b'\\'
}

/// Whether no finite `f64` is near to the number of this text.
fn is_out_of_range(text: &[u8]) -> bool {
    let text = core::str::from_utf8(text).unwrap_or_default();
    matches!(text.parse::<f64>(), Ok(number) if number.is_infinite())
}

/// Sorts members by their keys, those of one key as they are in the document.
fn sort(members: &mut [Member<'_>]) {
    // Keys are parts of the document, so that their addresses are in its order.
    members.sort_unstable_by(|one, other| {
        texts::order(one.key, other.key).then(one.key.as_ptr().cmp(&other.key.as_ptr()))
    });
}

/// These items, of which there are so many, in memory for no more.
fn exactly<T>(count: usize, items: impl Iterator<Item = T>) -> Result<Box<[T]>, AllocError> {
    let mut made = Vec::new();
    made.try_reserve_exact(count)?;
    made.extend(items);
    Ok(made.into_boxed_slice())
}
