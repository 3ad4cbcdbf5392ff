// Written by scripts/plain out of crates/ipnetwork_c/src/order.rt

//! Orders as numbers.

use fosibegan_core::ipnetwork::IpNetwork;
use core::cmp::Ordering;

/// Returns -1, 0 or 1 for less, equal or greater.
pub(crate) fn number_of_order(order: Ordering) -> i32 {
    match order {
        Ordering::Less => -1,
        Ordering::Equal => 0,
        Ordering::Greater => 1,
    }
}

/// Returns the order of two networks of either family, as a number.
pub(crate) fn number_between(one: IpNetwork, other: IpNetwork) -> i32 {
    number_of_order(one.cmp(&other))
}
