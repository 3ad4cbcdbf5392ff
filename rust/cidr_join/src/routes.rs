// Written by scripts/plain out of crates/cidr_join/src/routes.rt

//! The networks of a list with their values, and which of them contains a network.

use crate::line::Cause;
use crate::longest::longest_over;
use crate::value::Value;
use fosibegan_core::ipnetwork::{IpNetwork, Ipv4Network, Ipv6Network};
use fosibegan_core::ipnetwork_blocks::{AddressSpace, RangeBlocks, range_to_blocks};
use fosibegan_core::ipnetwork_index::RouteIndex;
use fosibegan_core::ipnetwork_table::PrefixTable;
use fosibegan_core::plain_std::alloc::{AllocError, Global};

/// The networks of a list that were read so far, by family, with their values. Each is stored as
/// its block, with its host bits set to zero.
pub struct Networks<'a> {
    pub(crate) v4: PrefixTable<Ipv4Network, Value<'a>>,
    pub(crate) v6: PrefixTable<Ipv6Network, Value<'a>>,
}

/// The networks of a list, indexed for lookups.
pub struct Routes<'a> {
    pub(crate) v4: RouteIndex<Ipv4Network, Value<'a>>,
    pub(crate) v6: RouteIndex<Ipv6Network, Value<'a>>,
}

/// Why a line does not give its network a value.
#[derive(Clone, Copy, Debug, PartialEq, Eq)]
pub enum RouteFault {
    /// Out of memory.
    OutOfMemory,
    /// The line is refused.
    Refused(Cause),
}

impl<'a> Networks<'a> {
    /// Creates an empty set of networks.
    pub(crate) fn new(alloc: Global) -> Networks<'a> {
        Networks {
            v4: PrefixTable::new(alloc),
            v6: PrefixTable::new(alloc),
        }
    }
}

impl<'a> Routes<'a> {
    /// Indexes these networks for lookups. Returns `AllocError` if memory runs out.
    pub(crate) fn of(alloc: Global, networks: Networks<'a>) -> Result<Routes<'a>, AllocError> {
        Ok(Routes {
            v4: RouteIndex::from_table(alloc, networks.v4)?,
            v6: RouteIndex::from_table(alloc, networks.v6)?,
        })
    }

    /// Returns the longest network that contains this one, with its value, or `None` if none does.
    pub(crate) fn longest(&self, asked: IpNetwork) -> Option<(IpNetwork, Value<'a>)> {
        match asked {
            IpNetwork::V4(asked) => match longest_over(&self.v4, asked) {
                Some((network, value)) => Some((IpNetwork::V4(network), value)),
                None => None,
            },
            IpNetwork::V6(asked) => match longest_over(&self.v6, asked) {
                Some((network, value)) => Some((IpNetwork::V6(network), value)),
                None => None,
            },
        }
    }
}

/// Gives a network a value. If it already has one, it gets the new one if `last_wins`; if not, it
/// keeps its own and `Cause::Twice` is returned. Returns `OutOfMemory` if memory runs out.
pub(crate) fn set_one<'a, N: AddressSpace>(
    table: &mut PrefixTable<N, Value<'a>>,
    network: N,
    value: Value<'a>,
    last_wins: bool,
) -> Result<(), RouteFault> {
    match table.insert(network, value) {
        Ok(Some(old)) if !last_wins => {
            // The block gets its own value back: one search fewer for each network that has none.
            let _ = table.insert(network, old);
            Err(RouteFault::Refused(Cause::Twice))
        }
        Ok(_) => Ok(()),
        Err(_) => Err(RouteFault::OutOfMemory),
    }
}

/// Gives a value to each block of the shortest list that makes up the range from `first` to `last`.
/// Returns `Cause::Twice` and changes nothing if a block has one, unless `last_wins`. If memory
/// runs out, returns `OutOfMemory`, and only some of the blocks may have the value.
pub(crate) fn set_range<'a, N: AddressSpace>(
    table: &mut PrefixTable<N, Value<'a>>,
    first: N::Addr,
    last: N::Addr,
    value: Value<'a>,
    last_wins: bool,
) -> Result<(), RouteFault> {
    if refuses_range(table, first, last, last_wins) {
        return Err(RouteFault::Refused(Cause::Twice));
    }
    let mut blocks = blocks_of::<N>(first, last);
    while let Some(block) = blocks.next() {
        set_one(table, block, value, true)?;
    }
    Ok(())
}

// Returns whether a range is refused: a block of the shortest list that makes it up has a value,
// and not `last_wins`.
fn refuses_range<N: AddressSpace>(
    table: &PrefixTable<N, Value<'_>>,
    first: N::Addr,
    last: N::Addr,
    last_wins: bool,
) -> bool {
    let mut blocks = blocks_of::<N>(first, last);
    if last_wins {
        return false;
    }
    while let Some(block) = blocks.next() {
        if table.get(block).is_some() {
            return true;
        }
    }
    false
}

// Returns the shortest list of blocks that makes up the range from `first` to `last`.
fn blocks_of<N: AddressSpace>(first: N::Addr, last: N::Addr) -> RangeBlocks<N> {
    // The clause `address` of this call states that `last` is an address of the family.
    let _ = N::block(last, N::WIDTH);
    let Some(blocks) = range_to_blocks::<N>(first, last) else {
        unreachable!()
    };
    blocks
}
