// Written by scripts/plain out of crates/cidr/src/commands/ends.rt

//! `ends`: the lowest and highest address of a network, its mask and its size.

use crate::commands::REFUSED;
use crate::commands::reading::network_of;
use crate::replies::{ANSWER_MAX, Answer, reply};
use fosibegan_core::ipnetwork::IpNetwork;
use fosibegan_core::ipnetwork::decimal::push_number;
use cidr_programs::lines::buffer::Buffer;

/// `ends`: the lowest and highest address of a network, its mask and its size.
pub(crate) fn ends(word: &[u8], replies: &mut Buffer<'_>) {
    match network_of(word) {
        Ok(network) => {
            let mut text = Answer::new();
            push_ends(network, &mut text);
            reply(replies, text.as_str());
        }
        Err(_) => reply(replies, REFUSED),
    }
}

/// Writes the lowest and highest address of a network, its mask and its size, separated by blanks:
/// three addresses of at most 39 bytes, a number of at most 39 digits and three blanks.
fn push_ends(network: IpNetwork, text: &mut Answer) {
    text.push_text(&network.network().canonical());
    text.push(' ');
    text.push_text(&network.broadcast().canonical());
    text.push(' ');
    text.push_text(&network.mask().canonical());
    text.push(' ');
    push_number(text, u128::from(network.size()));
}
