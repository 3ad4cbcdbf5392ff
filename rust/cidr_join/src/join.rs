// Written by scripts/plain out of crates/cidr_join/src/join.rt

//! What is printed for a line.

use crate::answers::Answers;
use crate::asked::network_of;
use crate::found::Found;
use fosibegan_core::ipnetwork::IpNetwork;
use cidr_programs::line_addresses::{Area, part_of, picked};
use cidr_programs::log_programs::byte_order_mark::judged;
use cidr_programs::log_programs::without_address::WithoutAddress;

/// What decides what is printed for a line.
pub struct Join<'a> {
    /// What is printed for its address or network.
    pub(crate) answers: Answers<'a>,
    pub(crate) area: Area<'a>,
    /// Whether lines are searched for networks as well as addresses.
    pub(crate) networks: bool,
    /// Whether an IPv4-mapped address or network of a line counts as its IPv4 one too.
    pub(crate) mapped: bool,
    /// Whether that is printed after the line instead of before it.
    pub(crate) last: bool,
    pub(crate) bad: WithoutAddress,
    /// Whether a tally includes the networks or values of the list that no line has.
    pub(crate) zeros: bool,
}

impl<'a> Join<'a> {
    /// Returns what is printed for the network of a line, or for a line without one. Does not
    /// allocate.
    pub(crate) fn find(&self, asked: Option<IpNetwork>) -> Found<'a> {
        match asked {
            Some(asked) => self.answers.find(&asked, self.mapped),
            None => Found::Nothing,
        }
    }

    /// Returns whether a line with this network, or without an address, ends the run.
    #[inline(always)]
    pub(crate) fn refuses(&self, asked: Option<IpNetwork>) -> bool {
        match asked {
            Some(_) => false,
            None => self.bad.is_stopped(),
        }
    }

    /// Returns whether a line with this network, or without an address, is left out.
    #[inline(always)]
    pub(crate) fn leaves_out(&self, asked: Option<IpNetwork>) -> bool {
        match asked {
            Some(_) => false,
            None => self.bad.is_dropped(),
        }
    }

    /// Returns the network of a line; that of an address has no other address. The line is given
    /// without its end, and `before` lines of its log come before it.
    pub(crate) fn network_in(&self, line: &[u8], before: u64) -> Option<IpNetwork> {
        let Some(part) = part_of(&self.area.part, judged(line, before)) else {
            return None;
        };
        let Some(found) = picked(part, self.area.pick, self.networks) else {
            return None;
        };
        network_of(part, &found, self.networks)
    }
}
