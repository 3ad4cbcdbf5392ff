//! Texts and lists of a fixed room: the calls of the crate `arrayvec` 0.7 that the sources make.

use crate::plain_std::simd::ascii;
use core::fmt;
use core::ops::Deref;

/// A text of at most `N` bytes. Those behind it are zeros.
#[derive(Clone, Copy)]
pub struct ArrayString<const N: usize> {
    bytes: [u8; N],
    len: usize,
}

impl<const N: usize> ArrayString<N> {
    /// The empty text.
    #[inline]
    #[allow(clippy::new_without_default)]
    pub const fn new() -> Self {
        ArrayString {
            bytes: [0; N],
            len: 0,
        }
    }

    /// Puts a character behind the text. Panics where there is no room.
    #[inline(always)]
    pub fn push(&mut self, char: char) {
        self.push_all([char]);
    }

    /// Puts characters behind the text, one after the other. Panics where there is no room.
    #[inline(always)]
    pub fn push_all<const M: usize>(&mut self, chars: [char; M]) {
        let at = self.len;
        let bits = chars.iter().fold(0, |bits, char| bits | u32::from(*char));
        if bits >= 128 {
            return self.push_any(&chars);
        }
        assert!(M <= N && at <= N - M, "there is no room for what is pushed");
        for (place, char) in chars.iter().enumerate() {
            self.bytes[at + place] = *char as u8;
        }
        self.len = at + M;
    }

    /// `push_all`, of any characters.
    #[cold]
    #[inline(never)]
    fn push_any(&mut self, chars: &[char]) {
        for char in chars {
            self.push_str(char.encode_utf8(&mut [0; 4]));
        }
    }

    /// Puts another text behind it. Panics where there is no room.
    #[inline]
    pub fn push_str(&mut self, text: &str) {
        self.push_bytes(text.as_bytes());
    }

    /// Puts another text of this kind behind it. Panics where there is no room.
    #[inline]
    pub fn push_text<const M: usize>(&mut self, text: &ArrayString<M>) {
        if M <= N && self.len <= N - M {
            // Behind both texts are zeros, and to copy some that are known to be so many takes no call.
            self.bytes[self.len..self.len + M].copy_from_slice(&text.bytes);
            self.len += text.len;
        } else {
            self.push_bytes(text.as_bytes());
        }
    }

    /// Puts the bytes of a text behind it. Panics where there is no room.
    #[inline]
    fn push_bytes(&mut self, bytes: &[u8]) {
        let at = self.len;
        let end = at + bytes.len();
        self.bytes[at..end].copy_from_slice(bytes);
        self.len = end;
    }

    /// Puts another text behind it, or gives it back and changes nothing where there is no room.
    pub fn try_push_str<'a>(&mut self, text: &'a str) -> Result<(), &'a str> {
        if text.len() > N - self.len {
            return Err(text);
        }
        self.push_str(text);
        Ok(())
    }

    /// The text.
    #[inline]
    pub fn as_str(&self) -> &str {
        match ascii(&self.bytes) {
            Some(all) => &all[..self.len],
            None => self.as_str_of_any(),
        }
    }

    /// `as_str`, of any characters.
    #[cold]
    fn as_str_of_any(&self) -> &str {
        match core::str::from_utf8(&self.bytes[..self.len]) {
            Ok(text) => text,
            Err(_) => unreachable!("only whole texts are pushed"),
        }
    }

    /// The bytes of the text.
    #[inline]
    pub fn as_bytes(&self) -> &[u8] {
        &self.bytes[..self.len]
    }

    /// The length in bytes.
    #[inline]
    pub fn len(&self) -> usize {
        self.len
    }

    /// Whether the text has no bytes.
    #[inline]
    pub fn is_empty(&self) -> bool {
        self.len == 0
    }

    /// Takes away all of the text.
    #[inline]
    pub fn clear(&mut self) {
        *self = ArrayString::new();
    }
}

impl<const N: usize> Deref for ArrayString<N> {
    type Target = str;

    #[inline]
    fn deref(&self) -> &str {
        self.as_str()
    }
}

impl<const N: usize> AsRef<str> for ArrayString<N> {
    fn as_ref(&self) -> &str {
        self.as_str()
    }
}

impl<const N: usize> fmt::Write for ArrayString<N> {
    fn write_str(&mut self, text: &str) -> fmt::Result {
        self.try_push_str(text).map_err(|_| fmt::Error)
    }
}

impl<const N: usize> fmt::Debug for ArrayString<N> {
    fn fmt(&self, f: &mut fmt::Formatter<'_>) -> fmt::Result {
        fmt::Debug::fmt(self.as_str(), f)
    }
}

impl<const N: usize> fmt::Display for ArrayString<N> {
    fn fmt(&self, f: &mut fmt::Formatter<'_>) -> fmt::Result {
        fmt::Display::fmt(self.as_str(), f)
    }
}

impl<const N: usize> PartialEq for ArrayString<N> {
    fn eq(&self, other: &Self) -> bool {
        self.bytes[..self.len] == other.bytes[..other.len]
    }
}

impl<const N: usize> Eq for ArrayString<N> {}

/// A list of at most `N` plain values.
pub struct ArrayVec<T, const N: usize> {
    items: [T; N],
    len: usize,
}

impl<T: Copy + Default, const N: usize> ArrayVec<T, N> {
    /// The empty list.
    #[inline]
    #[allow(clippy::new_without_default)]
    pub fn new() -> Self {
        ArrayVec {
            items: [T::default(); N],
            len: 0,
        }
    }

    /// Puts a value behind the list. Panics where there is no room.
    #[inline]
    pub fn push(&mut self, item: T) {
        self.items[self.len] = item;
        self.len += 1;
    }

    /// Takes the last value; `None` from an empty list.
    #[inline]
    pub fn pop(&mut self) -> Option<T> {
        self.len = self.len.checked_sub(1)?;
        Some(self.items[self.len])
    }

    /// The values.
    #[inline]
    pub fn as_slice(&self) -> &[T] {
        &self.items[..self.len]
    }

    /// Whether there is no room.
    #[inline]
    pub fn is_full(&self) -> bool {
        self.len == N
    }
}

impl<T, const N: usize> Deref for ArrayVec<T, N> {
    type Target = [T];

    fn deref(&self) -> &[T] {
        &self.items[..self.len]
    }
}

#[cfg(test)]
mod tests {
    use super::*;

    #[test]
    fn texts_behind_one_another() {
        let mut text = ArrayString::<12>::new();
        text.push('a');
        text.push_all(['b', 'ä', 'c']);
        text.push_all(['d', 'e']);
        text.push_str("fö");
        assert_eq!((text.as_str(), text.len()), ("abäcdefö", 10));
        let mut other = ArrayString::<2>::new();
        other.push_str("gh");
        text.push_text(&other);
        assert_eq!(text.as_str(), "abäcdefögh");
        assert_eq!(text.try_push_str("i"), Err("i"));
        assert_eq!(text.as_bytes(), "abäcdefögh".as_bytes());
        text.clear();
        assert_eq!((text.as_str(), text.is_empty()), ("", true));
        text.push_text(&other);
        text.push_text(&other);
        assert_eq!(text.as_str(), "ghgh");
    }

    /// A text that has more room than is left, and fits.
    #[test]
    fn a_text_with_more_room() {
        let mut wide = ArrayString::<40>::new();
        wide.push_str("10.0.0.0");
        for room in 0..4 {
            let mut text = ArrayString::<12>::new();
            text.push_str(&"    "[..room]);
            text.push_text(&wide);
            text.push('/');
            assert_eq!(text.as_str(), format_of(room));
        }
    }

    fn format_of(blanks: usize) -> &'static str {
        &"    10.0.0.0/"[4 - blanks..]
    }

    #[test]
    #[should_panic]
    fn no_room_for_a_character() {
        let mut text = ArrayString::<2>::new();
        text.push_all(['a', 'b']);
        text.push('c');
    }

    #[test]
    #[should_panic]
    fn no_room_for_characters() {
        let mut text = ArrayString::<2>::new();
        text.push('a');
        text.push_all(['b', 'c']);
    }

    #[test]
    #[should_panic]
    fn no_room_for_a_text() {
        let mut text = ArrayString::<2>::new();
        let mut other = ArrayString::<3>::new();
        other.push_str("abc");
        text.push_text(&other);
    }
}
