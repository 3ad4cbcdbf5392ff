// Written by scripts/plain out of crates/lists/src/named.rt

//! Reads a list by its name.

use crate::lists::encoding::Encoding;
use crate::lists::list_reader::ListReader;
use crate::lists::open_lists::OpenLists;
use crate::lists::opening::{OpenFault, open_list};
use crate::lists::read::{ListFault, read_list, take_text};

/// Why lists were not read to the end.
///
/// ```
/// # use cidr_programs::in_examples::*;
/// let fault = cidr_programs::lists::ReadFault::Open(1, cidr_programs::lists::OpenFault::Missing);
/// assert!(fault != cidr_programs::lists::ReadFault::Read(1));
/// ```
#[derive(Clone, Copy, Debug, PartialEq, Eq)]
pub enum ReadFault {
    /// The list that the word at this index names cannot be opened, for this cause.
    Open(usize, OpenFault),
    /// The list that the word at this index names cannot be read to its end.
    Read(usize),
    /// The document that the word at this index names has more than 1,073,741,824 bytes.
    Length(usize),
    /// The document that the word at this index names is neither JSON nor lines of JSON, or has more
    /// than 127 levels: the index of the word, the line, and what the document is if it is not plain
    /// text.
    NotJson(usize, u64, Option<Encoding>),
    /// The list that the word at this index names does not end with a line feed, so that it may have
    /// been cut, and such lists are refused (`Rules`).
    Cut(usize),
    /// The document that the word at this index names has no member of a name of a field, the one at
    /// the second index among these names.
    NoField(usize, usize),
    /// Memory ran out.
    OutOfMemory,
}

/// Opens the list of this name, which is the word at the index `place`, reads it to its end, and
/// closes it.
///
/// An error is returned if the list cannot be opened, a read fails, the list has more than
/// 18,446,744,073,709,551,615 bytes, memory runs out, or the rules say that lists end with a line
/// feed and this one does not. Even then the refused lines are added to the earlier ones.
///
/// ```
/// # use cidr_programs::in_examples::*;
/// # let rt = HostRuntime::new();
/// use cidr_programs::lists::{OpenFault, ReadFault, read_named};
///
/// let system = program::system::System::new(&rt);
/// let mut reader = cidr_programs::lists::ListReader::new(Global, cidr_programs::lists::Rules::lenient(), cidr_programs::lists::Refusals::new());
/// let fault = ReadFault::Open(1, OpenFault::Missing);
/// assert_eq!(read_named(&system, "no such file", 1, &mut reader), Err(fault));
/// ```
pub fn read_named<L: OpenLists>(
    lists: &L,
    name: &str,
    place: usize,
    reader: &mut ListReader,
) -> Result<(), ReadFault> {
    let mut list = match open_list(lists, name) {
        Ok(list) => list,
        Err(cause) => return Err(ReadFault::Open(place, cause)),
    };
    let read = read_list(reader, place, &mut list);
    lists.close(name, list);
    end_of(read, place, reader.is_out_of_memory())
}

/// Reads a text, which is the word at the index `place`, to its end as a list.
///
/// The only error is that memory ran out.
///
/// ```
/// # use cidr_programs::in_examples::*;
/// let mut reader = cidr_programs::lists::ListReader::new(Global, cidr_programs::lists::Rules::lenient(), cidr_programs::lists::Refusals::new());
/// assert_eq!(cidr_programs::lists::read_text("10.0.0.0/8", 1, &mut reader), Ok(()));
/// let (v4, _, _) = reader.into_networks();
/// assert_eq!(v4.len(), 1);
/// ```
pub fn read_text(text: &str, place: usize, reader: &mut ListReader) -> Result<(), ReadFault> {
    take_text(reader, place, text);
    if reader.is_out_of_memory() {
        return Err(ReadFault::OutOfMemory);
    }
    Ok(())
}

// Returns the result of reading the list at this index, by how its lines were taken and whether
// memory ran out.
fn end_of(
    read: Result<(), ListFault>,
    place: usize,
    is_out_of_memory: bool,
) -> Result<(), ReadFault> {
    if is_out_of_memory {
        return Err(ReadFault::OutOfMemory);
    }
    match read {
        Ok(()) => Ok(()),
        Err(ListFault::Cut) => Err(ReadFault::Cut(place)),
        Err(_) => Err(ReadFault::Read(place)),
    }
}
