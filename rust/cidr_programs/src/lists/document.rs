// Written by scripts/plain out of crates/lists/src/document.rt

//! Reads a JSON document as a list.

use crate::lists::bytes::{BytesFault, read_bytes};
use crate::lists::chosen::Strings;
use crate::lists::fields::take_fields;
use crate::lists::json_texts::documents_of;
use crate::lists::list_reader::ListReader;
use crate::lists::named::ReadFault;
use crate::lists::open_lists::OpenLists;
use crate::lists::strings::take_value;
use fosibegan_core::plain_std::json::Value;
use fosibegan_core::plain_std::alloc::Global;

/// The most bytes of a document.
///
/// ```
/// # use cidr_programs::in_examples::*;
/// assert_eq!(cidr_programs::lists::DOCUMENT_MAX, 1 << 30);
/// ```
pub const DOCUMENT_MAX: usize = 1_073_741_824;

/// Opens the JSON document (RFC 8259) of this name, which is the word at the index `place`, reads
/// it, and closes it.
///
/// Bytes that are no document, but of which each line that is not blank is one, are read as these
/// documents, one after another (JSON Lines).
///
/// Each string that is taken and is the text of a network or of a range is an entry. A string may
/// are at any depth, as an element of an array or as a value of an object; keys are no strings.
/// If an object has a key more than once, the last value counts. `strings` says which are taken:
///
/// - `LookingLikeEntries` or `All`: all. Any other string is refused if it looks like an entry
///   (`looks_like_entry`) or all have to be entries, and else skipped.
/// - `OfFields`: the values of an object's members with one of the names, and the elements of arrays
///   that are such values, also of arrays within them. Each has to be an entry: any other string, a
///   boolean and a number are refused, and `null` is skipped.
///
/// A string of more than 1,024 bytes is no entry. For refusals, strings that are taken are numbered
/// as lines are, through all documents, in the order of `Value`, which sorts the keys of an object.
///
/// An error is returned if the document cannot be opened, a read fails, it has more than
/// 1,073,741,824 bytes, it is not JSON in UTF-8 or has more than 127 levels, no member has one of
/// the names of fields, or memory runs out. The reader is then unchanged, unless memory ran out for an entry.
///
/// ```
/// # use cidr_programs::in_examples::*;
/// # let rt = HostRuntime::new();
/// use cidr_programs::lists::{OpenFault, ReadFault, Strings, read_document};
///
/// let system = program::system::System::new(&rt);
/// let mut reader = cidr_programs::lists::ListReader::new(Global, cidr_programs::lists::Rules::lenient(), cidr_programs::lists::Refusals::new());
/// let fault = ReadFault::Open(1, OpenFault::Missing);
/// let read = read_document(Global, &system, "no such file", 1, &Strings::All, &mut reader);
/// assert_eq!(read, Err(fault));
/// ```
pub fn read_document<L: OpenLists>(
    alloc: Global,
    lists: &L,
    name: &str,
    place: usize,
    strings: &Strings<'_>,
    reader: &mut ListReader,
) -> Result<(), ReadFault> {
    let bytes = match read_bytes(alloc, lists, name, DOCUMENT_MAX) {
        Ok(bytes) => bytes,
        Err(fault) => return Err(not_read(fault, place)),
    };
    take_bytes(alloc, bytes.as_slice(), place, strings, reader)
}

// Takes the strings of the documents that these bytes are. Nothing changes if they are none, or no
// member has one of the names of fields.
fn take_bytes(
    alloc: Global,
    bytes: &[u8],
    place: usize,
    strings: &Strings<'_>,
    reader: &mut ListReader,
) -> Result<(), ReadFault> {
    let documents = match documents_of(alloc, bytes, place) {
        Ok(documents) => documents,
        Err(fault) => return Err(fault),
    };
    if let Some(field) = lacking(strings, documents.as_slice()) {
        return Err(ReadFault::NoField(place, field));
    }
    reader.begin(place);
    take_documents(reader, documents.as_slice(), strings);
    if reader.is_out_of_memory() {
        return Err(ReadFault::OutOfMemory);
    }
    Ok(())
}

// Returns the index of the first name of which documents have no field, if only fields are taken.
fn lacking(strings: &Strings<'_>, documents: &[Value]) -> Option<usize> {
    match strings {
        Strings::OfFields(names) => names.first_lacking(documents),
        Strings::LookingLikeEntries | Strings::All => None,
    }
}

// Takes the strings of documents, one after another.
fn take_documents(reader: &mut ListReader, documents: &[Value], strings: &Strings<'_>) {
    for document in documents {
        take_document(reader, document, strings);
    }
}

// Takes the strings of a document.
fn take_document(reader: &mut ListReader, document: &Value, strings: &Strings<'_>) {
    match strings {
        Strings::LookingLikeEntries => take_value(reader, document, false),
        Strings::All => take_value(reader, document, true),
        Strings::OfFields(names) => take_fields(reader, names, document, false),
    }
}

// Returns why the document that the word at this index names was not read, by the fault of its
// bytes.
fn not_read(fault: BytesFault, place: usize) -> ReadFault {
    match fault {
        BytesFault::Open(cause) => ReadFault::Open(place, cause),
        BytesFault::Read => ReadFault::Read(place),
        BytesFault::Length => ReadFault::Length(place),
        BytesFault::OutOfMemory => ReadFault::OutOfMemory,
    }
}
