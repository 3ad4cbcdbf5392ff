// Written by scripts/plain out of crates/cidr_filter/src/filter.rt

//! The verdict on a line, and whether the line is selected.

use crate::matcher::{Matcher, asked};
use crate::networks::{address_named, covers};
use fosibegan_core::ipnetwork::{IpAddr, IpNetwork};
use cidr_programs::line_addresses::{Area, Found, Pick, Text, next_found, part_of, picked};
use cidr_programs::log_programs::byte_order_mark::judged;
use cidr_programs::log_programs::finding::found_in;
use cidr_programs::log_programs::without_address::WithoutAddress;
use cidr_programs::program::log_reader::LINE_MAX;

/// The verdict on a line: whether its addresses are in the lists.
#[derive(Clone, Copy, Debug, PartialEq, Eq)]
pub enum Verdict {
    /// An address of the line is in the lists. With `--longest`, this is the longest block that
    /// contains the first such address.
    Inside(Option<IpNetwork>),
    /// It has addresses, and none is in the lists.
    Outside,
    /// It has no address.
    NoAddress,
    /// It has more than 1,048,576 bytes, not counting its line end.
    TooLong,
}

/// The family whose addresses count. Others are ignored.
#[derive(Clone, Copy, Debug, PartialEq, Eq)]
pub enum Family {
    /// Either family.
    Either,
    /// IPv4.
    V4,
    /// IPv6.
    V6,
}

/// What is printed.
#[derive(Clone, Copy, Debug, PartialEq, Eq)]
pub enum OutputMode {
    /// The selected lines.
    Lines,
    /// The addresses of the selected lines that are in the list, in place of the lines.
    Addresses,
    /// How many lines are selected.
    Count,
    /// The name of each log that has a selected line.
    Names,
    /// Nothing, and the run ends at the first selected line.
    Nothing,
}

/// What decides which lines are selected, and what is printed for them.
pub struct Filter<'a> {
    pub(crate) listed: Matcher,
    pub(crate) area: Area<'a>,
    /// Whether an IPv4-mapped address of a line counts as its IPv4 one too.
    pub(crate) mapped: bool,
    /// The family whose addresses count.
    pub(crate) family: Family,
    pub(crate) inverts: bool,
    pub(crate) bad: WithoutAddress,
    /// How many lines of a log may be selected, if that is limited: the log ends at the last
    /// of them.
    pub(crate) most: Option<u64>,
    /// What is printed.
    pub(crate) shows: OutputMode,
    /// Whether the name of its log is printed for a line.
    pub(crate) named: bool,
    /// Whether the number of a line is printed before it.
    pub(crate) numbered: bool,
    /// Whether a NUL byte follows the name of a log, in place of a colon or line feed.
    pub(crate) nul: bool,
    /// The name of the log if it is printed, else empty.
    pub(crate) name: Text<'a>,
}

impl Filter<'_> {
    /// Returns the verdict on a line, given without its end, if `before` lines of its log come
    /// before it. Does not allocate.
    #[inline(always)]
    pub(crate) fn judge(&self, line: &[u8], before: u64) -> Verdict {
        if line.len() > LINE_MAX {
            return Verdict::TooLong;
        }
        self.judge_within(judged(line, before))
    }

    /// Returns whether a line is selected, if it is not too long and has the one address that is
    /// looked for. The code does not branch on the result, so the processor cannot mispredict it.
    /// Returns `None` for any other line, and with `--networks` or `--longest`. `before` lines of
    /// its log come before the line.
    #[inline(always)]
    pub(crate) fn selects_by_address(&self, line: &[u8], before: u64) -> Option<bool> {
        if line.len() > LINE_MAX {
            return None;
        }
        let Matcher::Addresses(sets) = &self.listed else {
            return None;
        };
        match self.only_address(judged(line, before)) {
            Some(address) => Some(sets.has_form(address, self.mapped) != self.inverts),
            None => None,
        }
    }

    // Returns the address that is looked for, if it is the whole part searched and it counts.
    #[inline(always)]
    fn only_address(&self, line: &[u8]) -> Option<IpAddr> {
        match self.area.pick {
            Pick::Whole => self.counted(found_in(&self.area, line)),
            _ => None,
        }
    }

    // An address, if it counts.
    #[inline(always)]
    fn counted(&self, address: Option<IpAddr>) -> Option<IpAddr> {
        let Some(address) = address else {
            return None;
        };
        if self.is_address_of_family(&address) {
            Some(address)
        } else {
            None
        }
    }

    // Returns the verdict on a line that is not too long.
    #[inline(always)]
    fn judge_within(&self, line: &[u8]) -> Verdict {
        match part_of(&self.area.part, line) {
            Some(part) => self.judge_part(part),
            None => Verdict::NoAddress,
        }
    }

    // Returns the verdict on a line, given the part that is searched.
    #[inline(always)]
    fn judge_part(&self, part: &[u8]) -> Verdict {
        match self.area.pick {
            Pick::Each => self.judge_each(part),
            _ => self.judge_picked(part, self.area.pick),
        }
    }

    // Returns the verdict on a line, given the part that is searched; only the address that `pick`
    // selects is looked at.
    #[inline(always)]
    fn judge_picked(&self, part: &[u8], pick: Pick) -> Verdict {
        match picked(part, pick, self.listed.reads_networks()) {
            Some(found) => self.judge_found(part, &found),
            None => Verdict::NoAddress,
        }
    }

    // Returns the verdict on a line in which only `found` is looked at.
    #[inline(always)]
    fn judge_found(&self, part: &[u8], found: &Found) -> Verdict {
        if !self.is_of_family(part, found) {
            return Verdict::NoAddress;
        }
        match self.told_of(part, found) {
            Some(told) => Verdict::Inside(told),
            None => Verdict::Outside,
        }
    }

    // Whether an address or network of a line counts.
    #[inline(always)]
    fn is_of_family(&self, line: &[u8], found: &Found) -> bool {
        self.family == Family::Either || self.is_of(self.address_asked(line, found), found.address)
    }

    // Returns the address by which an address or network of a line counts as IPv4.
    fn address_asked(&self, line: &[u8], found: &Found) -> IpAddr {
        if self.listed.reads_networks() && self.mapped {
            address_named(&line[found.start..found.end], found.address)
        } else {
            asked(self.mapped, found.address)
        }
    }

    // Whether an address of a line counts, if networks do not.
    #[inline(always)]
    fn is_address_of_family(&self, address: &IpAddr) -> bool {
        self.family == Family::Either || self.is_of(asked(self.mapped, *address), *address)
    }

    // Whether an address counts, of which `first` is looked up first.
    #[inline(always)]
    fn is_of(&self, first: IpAddr, address: IpAddr) -> bool {
        match self.family {
            Family::Either => true,
            Family::V4 => is_v4(first),
            Family::V6 => !is_v4(address),
        }
    }

    // Returns the verdict on a line, given the part that is searched for all its addresses.
    fn judge_each(&self, line: &[u8]) -> Verdict {
        let mut at = 0;
        let mut is_seen = false;
        let networks = self.listed.reads_networks();
        'addresses: while let Some(found) = next_found(line, at, networks) {
            if !self.is_of_family(line, &found) {
                at = found.next;
                continue 'addresses;
            }
            if let Some(told) = self.told_of(line, &found) {
                return Verdict::Inside(told);
            }
            is_seen = true;
            at = found.next;
        }
        if is_seen {
            Verdict::Outside
        } else {
            Verdict::NoAddress
        }
    }

    // Returns what is reported about an address or network of a line, if it is in the list.
    #[inline(always)]
    fn told_of(&self, line: &[u8], found: &Found) -> Option<Option<IpNetwork>> {
        match &self.listed {
            Matcher::Addresses(sets) => {
                if sets.has_form(found.address, self.mapped) {
                    Some(None)
                } else {
                    None
                }
            }
            Matcher::Networks(set) => {
                if covers(set, self.mapped, &line[found.start..found.end]) {
                    Some(None)
                } else {
                    None
                }
            }
            Matcher::Blocks(tables) => match tables.told(found.address, self.mapped) {
                Some(block) => Some(Some(block)),
                None => None,
            },
        }
    }

    /// Returns whether `-o` prints an address or network of a line: whether it counts and is in the
    /// list. With blocks it prints none, since `-o` is not given together with `--longest`.
    pub(crate) fn prints(&self, line: &[u8], found: &Found) -> bool {
        self.is_of_family(line, found) && self.is_listed(line, found)
    }

    // Returns whether an address or network of a line is in the list.
    fn is_listed(&self, line: &[u8], found: &Found) -> bool {
        match &self.listed {
            Matcher::Addresses(sets) => sets.tests_form(found.address, self.mapped),
            Matcher::Networks(set) => covers(set, self.mapped, &line[found.start..found.end]),
            Matcher::Blocks(_) => false,
        }
    }

    /// Whether the selected lines are only counted.
    pub(crate) fn counts(&self) -> bool {
        match self.shows {
            OutputMode::Count => true,
            OutputMode::Lines | OutputMode::Addresses | OutputMode::Names | OutputMode::Nothing =>
                false,
        }
    }

    /// Whether nothing is printed, and the run ends at the first selected line.
    pub(crate) fn is_silent(&self) -> bool {
        match self.shows {
            OutputMode::Nothing => true,
            OutputMode::Lines | OutputMode::Addresses | OutputMode::Count | OutputMode::Names =>
                false,
        }
    }

    /// Whether a line of this verdict is selected.
    pub(crate) fn selects(&self, verdict: &Verdict) -> bool {
        match *verdict {
            Verdict::Inside(_) => !self.inverts,
            Verdict::Outside => self.inverts,
            Verdict::NoAddress => self.bad == WithoutAddress::Keep,
            Verdict::TooLong => false,
        }
    }

    /// Whether a line of this verdict ends the run.
    pub(crate) fn refuses(&self, verdict: &Verdict) -> bool {
        match *verdict {
            Verdict::Inside(_) => false,
            Verdict::Outside => false,
            Verdict::NoAddress => self.bad.is_stopped(),
            Verdict::TooLong => self.bad.is_stopped(),
        }
    }
}

// Returns whether an address is an IPv4 address.
#[inline(always)]
fn is_v4(address: IpAddr) -> bool {
    match address {
        IpAddr::V4(_) => true,
        IpAddr::V6(_) => false,
    }
}
