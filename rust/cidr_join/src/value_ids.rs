// Written by scripts/plain out of crates/cidr_join/src/value_ids.rt

//! Numbers for what is printed for addresses by the networks of a list.

use fosibegan_core::plain_std::vec::Vec;
use crate::answers::Answers;
use crate::found::Found;
use crate::longest::longest_over;
use crate::routes::Routes;
use crate::value::Value;
use fosibegan_core::ipnetwork::{IpNetwork, Ipv4Network, Ipv6Network};
use fosibegan_core::ipnetwork_index::{IndexedNetwork, RouteIndex};
use fosibegan_core::ipnetwork_table::PrefixTable;
use cidr_programs::log_programs::unmapping::asked_network;
use fosibegan_core::plain_std::alloc::{AllocError, Global};

/// The numbers of the networks of a list, and what each number stands for. The number 0 is for
/// what none of them contains. If blocks are printed, there are no numbers.
pub struct ValueIds<'a> {
    pub(crate) v4: RouteIndex<Ipv4Network, usize>,
    pub(crate) v6: RouteIndex<Ipv6Network, usize>,
    // What each number stands for.
    pub(crate) founds: Vec<Found<'a>>,
}

// Networks of one family that convert to networks of either.
trait OfEither: IndexedNetwork {
    // Returns the network as one of either family.
    fn either(self) -> IpNetwork;
}

impl OfEither for Ipv4Network {
    fn either(self) -> IpNetwork {
        IpNetwork::V4(self)
    }
}

impl OfEither for Ipv6Network {
    fn either(self) -> IpNetwork {
        IpNetwork::V6(self)
    }
}

impl<'a> ValueIds<'a> {
    /// Numbers the networks that decide what is printed for addresses. Returns `AllocError` if
    /// memory runs out.
    pub(crate) fn of(alloc: Global, answers: &Answers<'a>) -> Result<ValueIds<'a>, AllocError> {
        match answers {
            Answers::Values(routes) => number_routes(alloc, routes, false),
            Answers::Networks(routes) => number_routes(alloc, routes, true),
            Answers::Blocks(_) => no_numbers(alloc),
        }
    }

    /// Returns what each number stands for.
    pub(crate) fn founds(&self) -> &[Found<'a>] {
        self.founds.as_slice()
    }

    /// Returns the number that stands for what is printed for the network of a line, or for a line
    /// without one; `None` if there are no numbers. If `mapped`, a network of IPv4-mapped addresses
    /// counts as the one of their IPv4 addresses too. Does not allocate.
    pub(crate) fn number_of(&self, asked: Option<IpNetwork>, mapped: bool) -> Option<usize> {
        if self.founds.is_empty() {
            return None;
        }
        match asked {
            Some(asked) => Some(self.number_for(&asked, mapped)),
            None => Some(0),
        }
    }

    // Returns the number that stands for what is printed for a network.
    fn number_for(&self, network: &IpNetwork, mapped: bool) -> usize {
        if mapped {
            self.number_of_either(asked_network(true, *network), *network)
        } else {
            self.number_at(*network)
        }
    }

    // Returns the number that stands for what is printed for the first network, or, if that is
    // nothing, for the second.
    fn number_of_either(&self, first: IpNetwork, second: IpNetwork) -> usize {
        if first == second {
            return self.number_at(first);
        }
        let number = self.number_at(first);
        match self.founds.get(number) {
            Some(Found::Nothing) => self.number_at(second),
            _ => number,
        }
    }

    // Returns the number that stands for what is printed for a network as it is.
    fn number_at(&self, asked: IpNetwork) -> usize {
        match asked {
            IpNetwork::V4(asked) => number_in(&self.v4, asked),
            IpNetwork::V6(asked) => number_in(&self.v6, asked),
        }
    }
}

// Returns the number of the longest network that contains this one, or 0.
fn number_in<N: IndexedNetwork>(index: &RouteIndex<N, usize>, asked: N) -> usize {
    match longest_over(index, asked) {
        Some(found) => found.1,
        None => 0,
    }
}

// Returns no numbers.
fn no_numbers<'a>(alloc: Global) -> Result<ValueIds<'a>, AllocError> {
    Ok(ValueIds {
        v4: RouteIndex::from_table(alloc, PrefixTable::new(alloc))?,
        v6: RouteIndex::from_table(alloc, PrefixTable::new(alloc))?,
        founds: Vec::new(alloc),
    })
}

// Numbers the networks of a list; `network` says whether they or their values are printed.
fn number_routes<'a>(
    alloc: Global,
    routes: &Routes<'a>,
    network: bool,
) -> Result<ValueIds<'a>, AllocError> {
    let mut founds = Vec::new(alloc);
    put(&mut founds, Found::Nothing)?;
    let v4 = number_each(alloc, routes.v4.table(), network, &mut founds)?;
    let v6 = number_each(alloc, routes.v6.table(), network, &mut founds)?;
    Ok(ValueIds { v4, v6, founds })
}

// Numbers the networks of one family, continuing the numbers in `founds`, and adds what these
// stand for.
fn number_each<'a, N: OfEither>(
    alloc: Global,
    table: &PrefixTable<N, Value<'a>>,
    network: bool,
    founds: &mut Vec<Found<'a>>,
) -> Result<RouteIndex<N, usize>, AllocError> {
    let mut numbers = PrefixTable::new(alloc);
    let mut left = table.iter();
    'listing: while let Some(entry) = left.next() {
        let at = entry.0;
        numbers.insert(at, founds.len())?;
        put(founds, found_of(at, entry.1, network))?;
    }
    RouteIndex::from_table(alloc, numbers)
}

/// Adds an item after the others.
pub(crate) fn put<T>(items: &mut Vec<T>, item: T) -> Result<(), AllocError> {
    items.push(item)?;
    Ok(())
}

// Returns what is printed if this is the longest network, with this value.
fn found_of<N: OfEither>(at: N, value: Value<'_>, network: bool) -> Found<'_> {
    if network {
        Found::Network(at.either())
    } else {
        Found::Value(value)
    }
}
