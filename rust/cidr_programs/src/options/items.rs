// Written by scripts/plain out of crates/options/src/items.rt

//! What the words of a command line say, as a list of items.

/// A text from a command line.
///
/// ```
/// # use cidr_programs::in_examples::*;
/// let text = cidr_programs::options::items::Text::new("10.0.0.0/8");
/// assert_eq!(text.as_str(), "10.0.0.0/8");
/// ```
#[derive(Debug)]
pub struct Text<'a> {
    text: &'a str,
}

impl<'a> Text<'a> {
    /// Creates a text from a string slice.
    ///
    /// ```
    /// # use cidr_programs::in_examples::*;
    /// assert!(cidr_programs::options::items::Text::new("").as_str().is_empty());
    /// ```
    pub fn new(text: &'a str) -> Text<'a> {
        Text { text }
    }

    /// Returns the text as a string slice.
    ///
    /// ```
    /// # use cidr_programs::in_examples::*;
    /// assert_eq!(cidr_programs::options::items::Text::new("-").as_str(), "-");
    /// ```
    pub fn as_str(&self) -> &'a str {
        self.text
    }
}

/// An item of a command line: an option, by the index of its row in the table, a FILE, or a word
/// that is no option.
///
/// ```
/// # use cidr_programs::in_examples::*;
/// use cidr_programs::options::items::{Item, Text};
///
/// let item = Item::Joined(2, Text::new("7"), Text::new("-k7"));
/// assert!(matches!(item, Item::Joined(2, _, _)));
/// ```
#[derive(Debug)]
pub enum Item<'a> {
    /// An option without a value.
    Flag(usize),
    /// An option and its value, which is the next word, or follows the last of several letters.
    Value(usize, Text<'a>),
    /// An option and its value in one word: the row, the value and the whole word.
    Joined(usize, Text<'a>, Text<'a>),
    /// A FILE, by its name.
    File(Text<'a>),
    /// A word that begins with `-` but is no option.
    Unknown(Text<'a>),
    /// An option that lacks the value it takes.
    Lacks(usize),
}

/// Where a word is.
///
/// ```
/// # use cidr_programs::in_examples::*;
/// use cidr_programs::options::items::Mode;
///
/// assert!(Mode::Value(2) != Mode::Free);
/// ```
#[derive(Clone, Copy, Debug, PartialEq, Eq)]
pub enum Mode {
    /// Where an option, a FILE or `--` may be.
    Free,
    /// Where the value of the option of this row is.
    Value(usize),
    /// After `--`, where only a FILE may be.
    Files,
}
