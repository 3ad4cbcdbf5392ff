//! The words of the command line.
use crate::plain_std::alloc::{AllocError, Global};
use crate::plain_std::string::String;
use std::io;
use std::vec::{IntoIter, Vec};

/// Why a buffer was not filled.
#[derive(Clone, Copy, Debug, PartialEq, Eq)]
pub enum FillError {
    /// There is no such value.
    NotPresent,
    /// The value is longer than the buffer.
    TooLong,
}

/// What a program is started with. A call copies a value to the front of `buf`, and returns its length.
pub trait Env {
    /// The word of this number; the first is the name of the program.
    fn arg(&self, i: usize, buf: &mut [u8]) -> Result<usize, FillError>;

    /// The environment variable of this name.
    fn var(&self, _name: &str, _buf: &mut [u8]) -> Result<usize, FillError> {
        Err(FillError::NotPresent)
    }

    /// The environment variable of this number, with its name.
    fn var_at(&self, _i: usize, _buf: &mut [u8]) -> Result<usize, FillError> {
        Err(FillError::NotPresent)
    }
}

impl<R: Env> Env for (R, Global) {
    fn arg(&self, i: usize, buf: &mut [u8]) -> Result<usize, FillError> {
        self.0.arg(i, buf)
    }
}

/// The words of the command line.
pub type Args = IntoIter<String>;

/// The words of the command line, the program's own name first. One that is not UTF-8 is an error.
pub fn args<R: Env>(of: &R) -> io::Result<Args> {
    let (mut words, mut room) = (Vec::new(), Vec::new());
    grow(&mut room)?;
    loop {
        match of.arg(words.len(), &mut room) {
            Ok(length) => push(&mut words, text(&room[..length])?)?,
            Err(FillError::TooLong) => grow(&mut room)?,
            Err(FillError::NotPresent) => return Ok(words.into_iter()),
        }
    }
}

/// A copy of these bytes, which have to be UTF-8.
fn text(bytes: &[u8]) -> io::Result<String> {
    match core::str::from_utf8(bytes) {
        Ok(text) => Ok(String::from_str(Global, text)?),
        Err(_) => Err(io::ErrorKind::InvalidData.into()),
    }
}

fn push(words: &mut Vec<String>, word: String) -> Result<(), AllocError> {
    words.try_reserve(1)?;
    words.push(word);
    Ok(())
}

/// Makes room for twice as many bytes.
fn grow(room: &mut Vec<u8>) -> Result<(), AllocError> {
    let more = room.len().max(64);
    room.try_reserve(more)?;
    room.resize(room.len() + more, 0);
    Ok(())
}
