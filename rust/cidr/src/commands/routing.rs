// Written by scripts/plain out of crates/cidr/src/commands/routing.rt

//! `add`, `drop` and `find`: the routes that a run keeps.

use crate::commands::REFUSED;
use crate::commands::reading::{address_of, network_of};
use crate::replies::{Answer, reply};
use crate::route_tables::RouteTables;
use fosibegan_core::ipnetwork::decimal::push_number;
use fosibegan_core::ipnetwork::parse::read_number;
use fosibegan_core::ipnetwork::IpNetwork;
use cidr_programs::lines::buffer::Buffer;

/// The answer if no block contains the address.
const NONE: &str = "none";

// The calls of these three commands are not inlined: otherwise the code around them, which every
// other command runs through, would save more registers.

/// `add`: gives the block of a network a number.
#[inline(never)]
pub(crate) fn add(network: &[u8], number: &[u8], routes: &mut RouteTables, replies: &mut Buffer<'_>) {
    // Does nothing: the proof of this body needs the law.
    let Ok(network) = network_of(network) else {
        reply(replies, REFUSED);
        return;
    };
    let Some(number) = read_number(number, u32::MAX) else {
        reply(replies, REFUSED);
        return;
    };
    reply(replies, insert(network, number, routes));
}

/// Gives the block of a network a number, and returns the answer, which says whether it had one.
fn insert(network: IpNetwork, number: u32, routes: &mut RouteTables) -> &'static str {
    match routes.insert(network, number) {
        Ok(None) => "new",
        Ok(Some(_)) => "changed",
        Err(_) => "out of memory",
    }
}

/// `drop`: removes the block of a network.
#[inline(never)]
pub(crate) fn drop(network: &[u8], routes: &mut RouteTables, replies: &mut Buffer<'_>) {
    match network_of(network) {
        Ok(network) => reply(replies, remove(network, routes)),
        Err(_) => reply(replies, REFUSED),
    }
}

/// Removes the block of a network, and returns the answer, which says whether it had a number.
fn remove(network: IpNetwork, routes: &mut RouteTables) -> &'static str {
    match routes.remove(network) {
        None => "absent",
        Some(_) => "dropped",
    }
}

/// `find`: the longest block that contains an address, and its number.
#[inline(never)]
pub(crate) fn find(address: &[u8], routes: &RouteTables, replies: &mut Buffer<'_>) {
    let Some(address) = address_of(address) else {
        reply(replies, REFUSED);
        return;
    };
    let Some((block, number)) = routes.find(address) else {
        reply(replies, NONE);
        return;
    };
    match block {
        IpNetwork::V4(block) => push_found(block.canonical().as_str(), number, replies),
        IpNetwork::V6(block) => push_found(block.canonical().as_str(), number, replies),
    }
}

/// Adds the answer: the block, of at most 43 bytes, a blank and its number.
fn push_found(block: &str, number: u32, replies: &mut Buffer<'_>) {
    let mut text = Answer::new();
    text.push_str(block);
    text.push(' ');
    push_number(&mut text, u128::from(number));
    reply(replies, text.as_str());
}
