// Written by scripts/plain out of crates/ipnetwork_table/src/common_bits.rt

//! The number of leading bits that the addresses of two networks share.

use crate::ipnetwork_family::CidrNetwork;

/// The number of leading bits that the addresses of two networks share, found by bisection.
pub(crate) fn shared_length<N: CidrNetwork>(one: N, other: N) -> u8 {
    let first = one.ip();
    let second = other.ip();
    let mut least = 0;
    let mut most = N::WIDTH;
    'halves: while least < most {
        let middle = most - (most - least) / 2;
        let Some(block) = N::block(first, middle) else {
            unreachable!()
        };
        if block.contains(second) {
            least = middle;
        } else {
            most = middle - 1;
        }
    }
    most
}
