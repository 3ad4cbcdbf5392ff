// Written by scripts/plain out of crates/ipnetwork_sets/src/ip_sets/equality.rt

//! Equality of sets.

use crate::ipnetwork_sets::ip_sets::ip_address_set::IpAddressSet;

/// Two sets are equal exactly if they have the same addresses of both families (`laws::equality`).
/// This is tested by comparing their blocks.
impl PartialEq for IpAddressSet {
    fn eq(&self, other: &IpAddressSet) -> bool {
        self.v4() == other.v4() && self.v6() == other.v6()
    }
}
