// Written by scripts/plain out of crates/ipnetwork_c/src/fault.rt

//! The numbers of faults, as the header names them.

use crate::text;
use fosibegan_core::ipnetwork::CidrFault;

pub(crate) const OK: u32 = 0;

pub(crate) const FORMAT: u32 = 1;

pub(crate) const ADDRESS: u32 = 2;

pub(crate) const PREFIX: u32 = 3;

pub(crate) const SHORT_BUFFER: u32 = 4;

pub(crate) const NO_MASK: u32 = 5;

pub(crate) const NO_MEMBER: u32 = 6;

pub(crate) const NO_FAMILY: u32 = 7;

pub(crate) const NO_OFFSETS: u32 = 8;

pub(crate) const NO_RANGE: u32 = 9;

pub(crate) const NO_SET: u32 = 10;

/// Returns the number of the cause why a text is refused.
pub(crate) fn number_of(fault: CidrFault) -> u32 {
    match fault {
        CidrFault::Format => FORMAT,
        CidrFault::Addr => ADDRESS,
        CidrFault::Prefix => PREFIX,
    }
}

/// Returns the text of a fault.
fn words_of(fault: u32) -> &'static str {
    match fault {
        OK => "no fault",
        FORMAT => "more than one slash",
        ADDRESS => "no address",
        PREFIX => "no prefix length of the family",
        SHORT_BUFFER => "no room for the answer",
        NO_MASK => "no mask",
        NO_MEMBER => "no such member or network",
        NO_FAMILY => "no family",
        NO_OFFSETS => "no offsets of the column",
        NO_RANGE => "no range",
        NO_SET => "no list of a set",
        _ => "unknown fault",
    }
}

/// Writes the text of a fault, `unknown fault` for a number that no call returns, and a zero byte
/// to `buffer`, for which 40 bytes are enough, and the length of the text, without the zero byte,
/// to `length`. Returns `SHORT_BUFFER` if the buffer has no room for both, and then writes only the
/// length.
#[inline]
pub fn ipnetwork_fault_text(fault: u32, buffer: &mut [u8], length: &mut usize) -> u32 {
    text::tell(words_of(fault).as_bytes(), buffer, length)
}

const _: () = {
    #[export_name = "ipnetwork_fault_text"]
    unsafe extern "C" fn called(fault: u32, buffer: *mut u8, buffer_length: usize, length: &mut usize) -> u32 {
        unsafe { ipnetwork_fault_text(fault, crate::lent::lent_mut(buffer, buffer_length), length) }
    }
};
