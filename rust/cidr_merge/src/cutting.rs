// Written by scripts/plain out of crates/cidr_merge/src/cutting.rt

//! Splits networks into subnets of one prefix length.

use crate::set_names::{SetNames, put_line};
use fosibegan_core::ipnetwork::{Address, CidrNetwork, Network};
use fosibegan_core::ipnetwork_blocks::subnets;
use fosibegan_core::ipnetwork_sets::AddressSet;
use cidr_programs::lines::fault::RunFault;
use cidr_programs::lines::output::Output;
use fosibegan_core::plain_std::io::Write;

/// Prints the subnets of this prefix length of each block of a set, or the block if it has none.
pub(crate) fn print_pieces<A: Address, W: Write>(
    names: &SetNames<'_>,
    length: u8,
    set: &AddressSet<Network<A>>,
    output: &mut Output<'_, W>,
) -> Result<(), RunFault> {
    let mut blocks = set.iter();
    while let Some(block) = blocks.next() {
        print_block(names, length, block, output)?;
    }
    Ok(())
}

// Prints the pieces of a block, or the block itself if it has no subnets of this length.
fn print_block<A: Address, W: Write>(
    names: &SetNames<'_>,
    length: u8,
    block: Network<A>,
    output: &mut Output<'_, W>,
) -> Result<(), RunFault> {
    let Some(mut pieces) = subnets(block, length) else {
        return put_network(names, block, output);
    };
    while let Some(piece) = pieces.next() {
        put_network(names, piece, output)?;
    }
    Ok(())
}

/// Prints a network on a line of its own.
pub(crate) fn put_network<A: Address, W: Write>(
    names: &SetNames<'_>,
    network: Network<A>,
    output: &mut Output<'_, W>,
) -> Result<(), RunFault> {
    put_line(names, network.canonical().as_str(), output)
}
