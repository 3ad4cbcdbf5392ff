//! Files. Rust's std allocates a copy of a long name, and ends the program if there is no memory for it. So as much is
//! requested before, and given back.
use crate::plain_std::alloc::{AllocError, has_memory};
use crate::plain_std::rt::HostRuntime;
use ::std::io::Result;

pub use ::std::fs::*;

/// A name of at most this many bytes is copied to the stack.
const SHORT: usize = 255;

/// The path, if there is memory for a copy of it.
fn with_memory(path: &str) -> ::core::result::Result<&str, AllocError> {
    if path.len() <= SHORT || has_memory::<u8>(path.len() + 1) { Ok(path) } else { Err(AllocError) }
}

pub fn open(_: &HostRuntime, path: &str) -> Result<File> {
    File::open(with_memory(path)?)
}

/// What the system says of a file of this name.
pub fn metadata(_: &HostRuntime, path: &str) -> Result<Metadata> {
    ::std::fs::metadata(with_memory(path)?)
}
