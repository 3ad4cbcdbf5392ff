//! The traits of a map that are those of its entries in order.

use super::{FrozenMap, PrefixMap};
use crate::Network;
use core::cmp::Ordering;
use core::fmt::{self, Debug, Formatter};
use core::hash::{Hash, Hasher};

macro_rules! by_entries {
    ($name:ident) => {
        impl<N: Network, V: Clone> Clone for $name<N, V> {
            fn clone(&self) -> Self {
                $name {
                    parts: self.parts.clone(),
                }
            }
        }

        impl<N: Network, V: Debug> Debug for $name<N, V> {
            fn fmt(&self, f: &mut Formatter<'_>) -> fmt::Result {
                f.debug_map().entries(self).finish()
            }
        }

        impl<N: Network, V: PartialEq> PartialEq for $name<N, V> {
            fn eq(&self, other: &Self) -> bool {
                self.len() == other.len() && self.iter().eq(other)
            }
        }

        impl<N: Network, V: Eq> Eq for $name<N, V> {}

        impl<N: Network, V: PartialOrd> PartialOrd for $name<N, V> {
            fn partial_cmp(&self, other: &Self) -> Option<Ordering> {
                self.iter().partial_cmp(other)
            }
        }

        impl<N: Network, V: Ord> Ord for $name<N, V> {
            fn cmp(&self, other: &Self) -> Ordering {
                self.iter().cmp(other)
            }
        }

        impl<N: Network, V: Hash> Hash for $name<N, V> {
            fn hash<H: Hasher>(&self, state: &mut H) {
                self.len().hash(state);
                self.iter().for_each(|entry| entry.hash(state));
            }
        }
    };
}

by_entries!(PrefixMap);
by_entries!(FrozenMap);
