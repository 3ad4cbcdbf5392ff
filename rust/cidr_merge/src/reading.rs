// Written by scripts/plain out of crates/cidr_merge/src/reading.rt

//! Reads the lists of a side.

use fosibegan_core::plain_std::string::String;
use crate::context::Context;
use crate::exports::Version;
use crate::families::looked_at;
use crate::help::PROGRAM;
use crate::shapes::{Shape, read_one, rules_of};
use fosibegan_core::ipnetwork::{Ipv4Network, Ipv6Network};
use fosibegan_core::ipnetwork_sets::AddressSet;
use cidr_programs::lines::output::Output;
use cidr_programs::lists::{ListReader, OpenLists, ReadFault, Refusals};
use cidr_programs::program::ending::FAILED;
use cidr_programs::program::telling::tell_fault;
use fosibegan_core::plain_std::io::Write;

/// The addresses of a side, by family.
#[derive(Debug)]
pub(crate) struct Sets {
    pub(crate) v4: AddressSet<Ipv4Network>,
    pub(crate) v6: AddressSet<Ipv6Network>,
}

/// Reads the lists of these names, in order; `first` is the index of the first of them. The sets
/// have the addresses of the families that are looked at.
///
/// The refused lines are added to `refusals`, even if the reading ends with a fault.
pub(crate) fn read_side<L: OpenLists>(
    context: &Context<'_, L>,
    shape: Shape,
    names: &[String],
    first: usize,
    refusals: Refusals,
) -> (Sets, Refusals, Result<(), ReadFault>) {
    let mut reader = ListReader::new(context.alloc, rules_of(shape), refusals);
    let end = read_all(context, shape, names, first, &mut reader);
    let sets = context.sets;
    let (v4, v6, refusals) = into_sets(sets.only, reader);
    (Sets { v4, v6 }, refusals, end)
}

// Returns the sets of the addresses that were read, of the families that are looked at, and the
// refused lines.
fn into_sets(
    only: Option<Version>,
    reader: ListReader,
) -> (AddressSet<Ipv4Network>, AddressSet<Ipv6Network>, Refusals) {
    let (v4, v6, refusals) = reader.into_networks();
    (
        AddressSet::from_networks(looked_at(only, Version::V4, v4)),
        AddressSet::from_networks(looked_at(only, Version::V6, v6)),
        refusals,
    )
}

// Reads the lists of these names, in order.
fn read_all<L: OpenLists>(
    context: &Context<'_, L>,
    shape: Shape,
    names: &[String],
    first: usize,
    reader: &mut ListReader,
) -> Result<(), ReadFault> {
    for place in 0..names.len() {
        read_one(context, shape, names[place].as_str(), first + place, reader)?;
    }
    Ok(())
}

/// Reports why lists could not be read to their ends, and returns the exit status for that.
pub(crate) fn refuse_lists<L: OpenLists, E: Write>(
    context: &Context<'_, L>,
    fault: ReadFault,
    errors: &mut Output<'_, E>,
) -> u8 {
    let fields = context.sets.field_names();
    tell_fault(PROGRAM, context.names, fields, fault, errors);
    FAILED
}
