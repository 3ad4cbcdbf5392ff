// Written by scripts/plain out of crates/ipnetwork_sets/src/order.rt

//! The order of networks and addresses.

use crate::ipnetwork_blocks::AddressSpace;

/// Whether the first ends before the address of the second: by the bits that both addresses share,
/// since an intersection of IPv6 sets that makes the first's last address takes 1.25 times as long.
pub(crate) fn ends_before<N: AddressSpace>(first: N, second: N) -> bool {
    let own = first.ip();
    let begin = second.ip();
    let shared = N::shared_bits(own, begin);
    if first.prefix() <= shared {
        return false;
    }
    is_before::<N>(own, begin)
}

/// Whether some address is in both networks: whether they share the bits of the shorter prefix.
#[inline(always)]
pub(crate) fn share_address<N: AddressSpace>(first: N, second: N) -> bool {
    let one = first.ip();
    let other = second.ip();
    let shared = N::shared_bits(one, other);
    let length = first.prefix();
    let other_length = second.prefix();
    if length <= shared {
        return true;
    }
    other_length <= shared
}

/// Whether the network ends at the address.
pub(crate) fn ends_at<N: AddressSpace>(network: N, last: N::Addr) -> bool {
    last == network.broadcast()
}

/// Whether the first address comes before the second.
pub(crate) fn is_before<N: AddressSpace>(first: N::Addr, second: N::Addr) -> bool {
    first < second
}

/// Whether the second begins right after the first.
pub(crate) fn touches<N: AddressSpace>(first: N, second: N) -> bool {
    begins_behind(first.broadcast(), second)
}

/// Whether the network begins right after the address.
fn begins_behind<N: AddressSpace>(last: N::Addr, network: N) -> bool {
    let begin = network.ip();
    match N::next_address(last) {
        Some(next) => next == begin,
        None => false,
    }
}

/// Whether the network begins at or before the address or right after it, so that no address lies
/// between them.
pub(crate) fn goes_on<N: AddressSpace>(last: N::Addr, network: N) -> bool {
    network.ip() <= last || begins_behind(last, network)
}
