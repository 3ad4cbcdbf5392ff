// Written by scripts/plain out of crates/cidr_merge/src/addresses.rt

//! Prints addresses.

use crate::set_names::{SetNames, put_line};
use fosibegan_core::ipnetwork::{Address, NetworkIterator};
use cidr_programs::lines::fault::RunFault;
use cidr_programs::lines::output::Output;
use fosibegan_core::plain_std::io::Write;

/// Prints each address on a line of its own.
pub(crate) fn print_addresses<A: Address, W: Write>(
    names: &SetNames<'_>,
    mut addresses: NetworkIterator<A>,
    output: &mut Output<'_, W>,
) -> Result<(), RunFault> {
    while let Some(address) = addresses.next() {
        put_address(names, address, output)?;
    }
    Ok(())
}

// Prints an address on a line.
fn put_address<A: Address, W: Write>(
    names: &SetNames<'_>,
    address: A,
    output: &mut Output<'_, W>,
) -> Result<(), RunFault> {
    put_line(names, address.canonical().as_str(), output)
}
