// Written by scripts/plain out of crates/ipnetwork_table/src/lookups.rt

//! Look-ups of the longest stored block that holds an address. Only `Values` can search, and each of
//! its searches adds one to a count that nothing here can begin.

use crate::ipnetwork_table::common_bits::shared_length;
use crate::ipnetwork_table::table::{Searches, Values};
use crate::ipnetwork_family::CidrNetwork;

/// The stored block with the greatest prefix length that holds the address, and its value, if any,
/// found with at most `WIDTH + 1` searches; `used[p]` is the number of stored blocks with prefix
/// length p.
///
/// Each search is for a block that holds the address, stored or not, and finds the last stored
/// block that does not come after it. If that holds the address, it is the longest that does, since
/// a longer one would come after it. Otherwise, a stored block that holds the address also holds
/// the one that was found, so its prefix has at most the bits that the addresses of both share. The
/// next search is for the block of the greatest prefix length in use that is not above their
/// number.
pub(crate) fn longest_holding<N: CidrNetwork, V: Copy>(
    values: &Values<N, V>,
    used: &[usize; 256],
    searches: &mut Searches,
    addr: N::Addr,
) -> Option<(N, V)> {
    let mut most = N::WIDTH;
    'shorter: loop {
        let Some(end) = N::block(addr, most) else {
            unreachable!()
        };
        let (near, value) = values.last_up_to(searches, end)?;
        if near.contains(addr) {
            return Some((near, value));
        }
        let length = last_used_up_to(used, shared_length(end, near))?;
        most = length;
    }
}

// The greatest prefix length in use that is not above `most`, if any.
fn last_used_up_to(used: &[usize; 256], most: u8) -> Option<u8> {
    let mut length = most;
    'shorter: loop {
        if used[length as usize] > 0 {
            return Some(length);
        }
        if length == 0 {
            return None;
        }
        length -= 1;
    }
}

/// What `longest_holding` finds, by a search for the block of each prefix length in turn, from
/// `WIDTH` down.
pub(crate) fn longest_in_turn<N: CidrNetwork, V: Copy>(
    values: &Values<N, V>,
    searches: &mut Searches,
    addr: N::Addr,
) -> Option<(N, V)> {
    let mut prefix = N::WIDTH;
    'shorter: loop {
        let Some(block) = N::block(addr, prefix) else {
            unreachable!()
        };
        if let Some(value) = values.probe(searches, block) {
            return Some((block, value));
        }
        if prefix == 0 {
            return None;
        }
        prefix -= 1;
    }
}
