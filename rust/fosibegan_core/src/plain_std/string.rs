use crate::plain_std::alloc::{AllocError, Global};
use core::fmt::{self, Display, Write};

/// A text whose growth can fail.
#[derive(Debug, Default, PartialEq, Eq, PartialOrd, Ord, Hash)]
pub struct String(rust_alloc::string::String);

impl String {
    pub const fn new(_: Global) -> Self {
        String(rust_alloc::string::String::new())
    }

    pub fn with_capacity(_: Global, count: usize) -> Result<Self, AllocError> {
        let mut text = rust_alloc::string::String::new();
        text.try_reserve_exact(count)?;
        Ok(String(text))
    }

    pub fn from_str(alloc: Global, text: &str) -> Result<Self, AllocError> {
        let mut made = String::with_capacity(alloc, text.len())?;
        made.push_str(text)?;
        Ok(made)
    }

    pub fn push_str(&mut self, text: &str) -> Result<(), AllocError> {
        self.0.try_reserve(text.len())?;
        self.0.push_str(text);
        Ok(())
    }

    /// The same of a text of any kind.
    pub fn push_text(&mut self, text: &impl AsRef<str>) -> Result<(), AllocError> {
        self.push_str(text.as_ref())
    }

    pub fn push(&mut self, char: char) -> Result<(), AllocError> {
        self.push_str(char.encode_utf8(&mut [0; 4]))
    }

    /// What `write!` calls.
    pub fn write_fmt(&mut self, text: fmt::Arguments<'_>) -> Result<(), AllocError> {
        Write::write_fmt(self, text).map_err(|_| AllocError)
    }

    pub fn as_str(&self) -> &str {
        &self.0
    }

    /// Rust's own text.
    pub fn into_std(self) -> rust_alloc::string::String {
        self.0
    }
}

impl ::core::ops::Deref for String {
    type Target = str;

    fn deref(&self) -> &str {
        &self.0
    }
}

impl AsRef<str> for String {
    fn as_ref(&self) -> &str {
        &self.0
    }
}

impl Display for String {
    fn fmt(&self, f: &mut fmt::Formatter<'_>) -> fmt::Result {
        Display::fmt(self.as_str(), f)
    }
}

impl Write for String {
    fn write_str(&mut self, text: &str) -> fmt::Result {
        Ok(self.push_str(text)?)
    }
}

/// `to_string`, with an allocator. Every page of a type that prints itself would show it.
#[doc(hidden)]
pub trait ToString {
    fn kit_to_string(&self, alloc: Global) -> Result<String, AllocError>;
}

impl<T: Display + ?Sized> ToString for T {
    fn kit_to_string(&self, alloc: Global) -> Result<String, AllocError> {
        formatted(alloc, format_args!("{self}"))
    }
}

pub fn formatted(alloc: Global, text: fmt::Arguments<'_>) -> Result<String, AllocError> {
    let mut made = String::new(alloc);
    made.write_fmt(text)?;
    Ok(made)
}
