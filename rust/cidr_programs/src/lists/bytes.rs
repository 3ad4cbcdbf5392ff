// Written by scripts/plain out of crates/lists/src/bytes.rt

//! Reads all bytes of a list.

use fosibegan_core::plain_std::vec::Vec;
use crate::lists::open_lists::OpenLists;
use crate::lists::opening::{OpenFault, open_list};
use crate::lines::watched::Watched;
use fosibegan_core::plain_std::alloc::Global;
use fosibegan_core::plain_std::io::Read;

/// The number of bytes that are read at once.
const CHUNK_LEN: usize = 65536;

/// Why the bytes of a list were not read to the end.
///
/// ```
/// # use cidr_programs::in_examples::*;
/// use cidr_programs::lists::{BytesFault, OpenFault};
///
/// assert!(BytesFault::Open(OpenFault::Other) != BytesFault::Read);
/// ```
#[derive(Clone, Copy, Debug, PartialEq, Eq)]
pub enum BytesFault {
    /// The list cannot be opened, for this cause.
    Open(OpenFault),
    /// A read failed.
    Read,
    /// The list has more bytes than were allowed.
    Length,
    /// Memory ran out.
    OutOfMemory,
}

/// Opens the list of this name, reads all of its bytes, and closes it.
///
/// An error is returned if the list cannot be opened, a read fails, the list has more than `max`
/// bytes, or memory runs out.
///
/// ```
/// # use cidr_programs::in_examples::*;
/// # let rt = HostRuntime::new();
/// use cidr_programs::lists::{BytesFault, OpenFault};
///
/// let system = program::system::System::new(&rt);
/// let fault = BytesFault::Open(OpenFault::Missing);
/// let read = cidr_programs::lists::read_bytes(Global, &system, "no such file", 1024);
/// assert_eq!(read.err(), Some(fault));
/// ```
pub fn read_bytes<L: OpenLists>(
    alloc: Global,
    lists: &L,
    name: &str,
    max: usize,
) -> Result<Vec<u8>, BytesFault> {
    let mut list = match open_list(lists, name) {
        Ok(list) => list,
        Err(cause) => return Err(BytesFault::Open(cause)),
    };
    let bytes = read_all(alloc, &mut list, max);
    lists.close(name, list);
    bytes
}

// Reads all bytes that a device has left, at most `max`.
fn read_all<R: Read>(
    alloc: Global,
    reader: &mut Watched<R>,
    max: usize,
) -> Result<Vec<u8>, BytesFault> {
    let mut bytes = Vec::new(alloc);
    let mut chunk = [0u8; CHUNK_LEN];
    let mut room = max;
    'reads: loop {
        let Ok(count) = reader.read(&mut chunk) else {
            return Err(BytesFault::Read);
        };
        if count == 0 {
            return Ok(bytes);
        }
        if count > room {
            return Err(BytesFault::Length);
        }
        room -= count;
        if bytes.extend_from_slice(&chunk[..count]).is_err() {
            return Err(BytesFault::OutOfMemory);
        }
    }
}
