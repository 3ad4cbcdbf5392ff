// Written by scripts/plain out of crates/ipnetwork_c/src/build.rt

//! Which build of the library this is.

use crate::text;

/// The version of the library, and what it is: proved, or made of proved sources.
const BUILD: &str = "0.2.0-dev (plain Rust, made of proved sources)";

/// Writes the version of the library, a space and which build it is, in parentheses, and a zero
/// byte to `buffer`, for which 64 bytes are enough, and the length of the text, without the zero
/// byte, to `length`. Returns `SHORT_BUFFER` if the buffer has no room for both, and then writes
/// only the length.
#[inline]
pub fn ipnetwork_build(buffer: &mut [u8], length: &mut usize) -> u32 {
    text::tell(BUILD.as_bytes(), buffer, length)
}

const _: () = {
    #[export_name = "ipnetwork_build"]
    unsafe extern "C" fn called(buffer: *mut u8, buffer_length: usize, length: &mut usize) -> u32 {
        unsafe { ipnetwork_build(crate::lent::lent_mut(buffer, buffer_length), length) }
    }
};
