//! What a program may use of the system: its standard streams, its words, memory.
use crate::plain_std::alloc::{Global, has_memory};
use crate::plain_std::env::FillError;
#[cfg(unix)]
use crate::plain_std::streams::Stream;
use crate::plain_std::string::String;
use crate::plain_std::words;
use core::fmt::Arguments;
#[cfg(not(unix))]
use std::io::IsTerminal as _;
use std::io::{self, BufRead as _, Read, Write};

pub use crate::plain_std::env::Env;

/// The most bytes that an environment variable has on Linux, with its name.
const VALUE_MAX: usize = 131_072;

/// Stands for what the sources' own runtime gives leave to.
#[derive(Debug)]
pub struct HostRuntime(());

/// What has an allocator.
pub trait Alloc {
    /// Its type.
    type A;

    /// The allocator.
    fn alloc(&self) -> Self::A;
}

impl Alloc for HostRuntime {
    type A = Global;

    fn alloc(&self) -> Global {
        Global
    }
}

impl<R> Alloc for (R, Global) {
    type A = Global;

    fn alloc(&self) -> Global {
        self.1
    }
}

impl Env for HostRuntime {
    fn arg(&self, i: usize, buf: &mut [u8]) -> Result<usize, FillError> {
        filled(buf, words::word(i).ok_or(FillError::NotPresent)?)
    }

    fn var(&self, name: &str, buf: &mut [u8]) -> Result<usize, FillError> {
        // Rust's std copies a value, and ends the program if there is no memory for it.
        if !has_memory::<u8>(VALUE_MAX) {
            return Err(FillError::TooLong);
        }
        filled(buf, std::env::var_os(name).ok_or(FillError::NotPresent)?.as_encoded_bytes())
    }
}

/// Copies a value to the front of a buffer, and returns its length.
fn filled(buf: &mut [u8], value: &[u8]) -> Result<usize, FillError> {
    buf.get_mut(..value.len()).ok_or(FillError::TooLong)?.copy_from_slice(value);
    Ok(value.len())
}

#[allow(clippy::new_without_default)]
impl HostRuntime {
    /// The runtime of this process.
    pub fn new() -> Self {
        HostRuntime(())
    }

    /// The allocator.
    pub fn alloc(&self) -> Global {
        Global
    }

    /// Standard input.
    pub fn stdin(&self) -> Stdin {
        Stdin::new()
    }

    /// Standard output.
    pub fn stdout(&self) -> Stdout {
        Stdout::new()
    }

    /// Standard error.
    pub fn stderr(&self) -> Stderr {
        Stderr::new()
    }

    /// The lines of standard input, without their ends.
    pub fn lines(&self, _: Global) -> impl Iterator<Item = io::Result<String>> {
        io::BufReader::new(self.stdin()).lines().map(|line| Ok(String::from_str(Global, &line?)?))
    }

    /// Prints a line to standard error.
    pub fn eprintln(&self, text: &str) -> io::Result<()> {
        writeln!(self.stderr(), "{text}")
    }
}

/// Prints to standard output.
pub fn print(_: &HostRuntime, text: Arguments<'_>) -> io::Result<()> {
    Stdout::new().write_fmt(text)
}

/// Prints a line to standard output.
pub fn print_line(_: &HostRuntime, text: Arguments<'_>) -> io::Result<()> {
    writeln!(Stdout::new(), "{text}")
}

macro_rules! streams {
    ($($(#[$doc:meta])* $name:ident $descriptor:literal $call:ident)*) => {$(
        $(#[$doc])*
        #[derive(Debug)]
        pub struct $name(#[cfg(unix)] Stream, #[cfg(not(unix))] io::$name);

        impl $name {
            fn new() -> Self {
                #[cfg(unix)]
                return $name(Stream::of($descriptor));
                #[cfg(not(unix))]
                return $name(io::$call());
            }

            /// Whether the stream is a terminal.
            pub fn is_terminal(&self) -> bool {
                self.0.is_terminal()
            }
        }
    )*};
}

streams!(
    /// Standard input.
    Stdin 0 stdin
    /// Standard output.
    Stdout 1 stdout
    /// Standard error.
    Stderr 2 stderr
);

impl Read for Stdin {
    fn read(&mut self, room: &mut [u8]) -> io::Result<usize> {
        self.0.read(room)
    }
}

impl Write for Stdout {
    fn write(&mut self, bytes: &[u8]) -> io::Result<usize> {
        self.0.write(bytes)
    }

    fn flush(&mut self) -> io::Result<()> {
        self.0.flush()
    }
}

impl Write for Stderr {
    fn write(&mut self, bytes: &[u8]) -> io::Result<usize> {
        self.0.write(bytes)
    }

    fn flush(&mut self) -> io::Result<()> {
        self.0.flush()
    }
}
