// Written by scripts/plain out of crates/cidr_merge/src/families.rt

//! The families whose networks are looked at: one, or both.

use fosibegan_core::plain_std::vec::Vec;
use crate::exports::Version;
use crate::rows::{ONLY_V4, ONLY_V6};
use cidr_programs::options::given::is_given;
use cidr_programs::options::items::Item;

/// Returns the family that is looked at alone: that of `-4` or `-6`.
pub(crate) fn only_of(items: &[Item<'_>]) -> Option<Version> {
    if is_given(items, ONLY_V4) {
        Some(Version::V4)
    } else if is_given(items, ONLY_V6) {
        Some(Version::V6)
    } else {
        None
    }
}

/// Returns whether a family is looked at: it is, unless the other alone is.
pub(crate) fn looks_at(only: Option<Version>, version: Version) -> bool {
    match (only, version) {
        (Some(Version::V4), Version::V6) => false,
        (Some(Version::V6), Version::V4) => false,
        _ => true,
    }
}

/// Returns the networks of a family that are looked at: all of them, or none.
pub(crate) fn looked_at<N>(
    only: Option<Version>,
    version: Version,
    mut networks: Vec<N>,
) -> Vec<N> {
    if !looks_at(only, version) {
        networks.clear();
    }
    networks
}
