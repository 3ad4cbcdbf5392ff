//! The operators on sets.

use crate::convert::or_abort;
use crate::{AddressSet, Network};
use alloc::vec::Vec;
use core::ops::{
    BitAnd, BitAndAssign, BitOr, BitOrAssign, BitXor, BitXorAssign, Not, Sub, SubAssign,
};
use fosibegan_core::plain_std::alloc::Global;
use fosibegan_core::plain_std::vec::Vec as CoreVec;
use fosibegan_core::{AddressSet as CoreSet, AddressSpace, RangeBlocks, SetBlocks, collected};

/// So many networks are rather added to a set or removed from it one by one.
const FEW: usize = 8;

fn union<C: AddressSpace>(set: &CoreSet<C>, other: &CoreSet<C>) -> CoreSet<C> {
    let most = set.blocks().len() + other.blocks().len();
    let memory = or_abort(CoreVec::with_capacity(Global, most));
    or_abort(set.union(other, memory))
}

fn set_of<C: AddressSpace>(blocks: impl SetBlocks<C>) -> CoreSet<C> {
    or_abort(collected(blocks, CoreVec::new(Global)))
}

fn exclusive_or<C: AddressSpace>(set: &CoreSet<C>, other: &CoreSet<C>) -> CoreSet<C> {
    union(
        &set_of(set.difference(other)),
        &set_of(other.difference(set)),
    )
}

fn add<C: AddressSpace>(set: &mut CoreSet<C>, other: &CoreSet<C>) {
    if other.blocks().len() > FEW {
        *set = union(set, other);
        return;
    }
    for block in other.blocks() {
        or_abort(set.insert(*block));
    }
}

fn subtract<C: AddressSpace>(set: &mut CoreSet<C>, other: &CoreSet<C>) {
    if other.blocks().len() > FEW {
        *set = set_of(set.difference(other));
        return;
    }
    for block in other.blocks() {
        or_abort(set.remove(*block));
    }
}

/// The networks of a range, unless they are few.
fn many<C: AddressSpace>(blocks: &RangeBlocks<C>) -> Option<CoreSet<C>> {
    blocks.clone().nth(FEW)?;
    let blocks: Vec<C> = blocks.clone().collect();
    Some(CoreSet::from_networks(blocks.into()))
}

/// Adds the networks of a range. Returns whether any address of theirs was not in the set.
pub(super) fn add_blocks<C: AddressSpace>(set: &mut CoreSet<C>, blocks: RangeBlocks<C>) -> bool {
    let Some(all) = many(&blocks) else {
        return blocks.fold(false, |is_new, block| is_new | or_abort(set.insert(block)));
    };
    let is_new = all.blocks().iter().any(|block| !set.covers(*block));
    if is_new {
        add(set, &all);
    }
    is_new
}

/// Removes the networks of a range. Returns whether any address of theirs was in the set.
pub(super) fn subtract_blocks<C: AddressSpace>(
    set: &mut CoreSet<C>,
    blocks: RangeBlocks<C>,
) -> bool {
    let Some(all) = many(&blocks) else {
        return blocks.fold(false, |was_in, block| was_in | or_abort(set.remove(block)));
    };
    let was_in = all.blocks().iter().any(|block| set.overlaps(*block));
    if was_in {
        subtract(set, &all);
    }
    was_in
}

impl<N: Network> BitOr for &AddressSet<N> {
    type Output = AddressSet<N>;

    /// Returns the set of the addresses that are in one of the sets or in both.
    ///
    /// # Examples
    ///
    /// ```
    /// use fosibegan::{AddressSet, IpNetwork};
    ///
    /// let office = AddressSet::from(["192.0.2.0/25".parse::<IpNetwork>()?]);
    /// let guests = AddressSet::from(["192.0.2.128/25".parse::<IpNetwork>()?]);
    /// assert_eq!(&office | &guests, AddressSet::from(["192.0.2.0/24".parse::<IpNetwork>()?]));
    /// # Ok::<(), Box<dyn std::error::Error>>(())
    /// ```
    fn bitor(self, other: Self) -> AddressSet<N> {
        AddressSet::of_parts(union(&self.v4, &other.v4), union(&self.v6, &other.v6))
    }
}

impl<N: Network> BitAnd for &AddressSet<N> {
    type Output = AddressSet<N>;

    /// Returns the set of the addresses that are in both sets.
    ///
    /// # Examples
    ///
    /// ```
    /// use fosibegan::{AddressSet, IpNetwork};
    ///
    /// let office = AddressSet::from(["192.0.2.0/24".parse::<IpNetwork>()?]);
    /// let seen = AddressSet::from(["192.0.2.7".parse::<IpNetwork>()?, "10.0.0.1".parse()?]);
    /// assert_eq!(&office & &seen, AddressSet::from(["192.0.2.7".parse::<IpNetwork>()?]));
    /// # Ok::<(), Box<dyn std::error::Error>>(())
    /// ```
    fn bitand(self, other: Self) -> AddressSet<N> {
        let v4 = set_of(self.v4.intersection(&other.v4));
        AddressSet::of_parts(v4, set_of(self.v6.intersection(&other.v6)))
    }
}

impl<N: Network> Sub for &AddressSet<N> {
    type Output = AddressSet<N>;

    /// Returns the set of the addresses that are in the first set and not in the second.
    ///
    /// # Examples
    ///
    /// ```
    /// use fosibegan::{AddressSet, IpNetwork};
    ///
    /// let allowed = AddressSet::from(["192.0.2.0/24".parse::<IpNetwork>()?]);
    /// let denied = AddressSet::from(["192.0.2.128/25".parse::<IpNetwork>()?]);
    /// assert_eq!(&allowed - &denied, AddressSet::from(["192.0.2.0/25".parse::<IpNetwork>()?]));
    /// # Ok::<(), Box<dyn std::error::Error>>(())
    /// ```
    fn sub(self, other: Self) -> AddressSet<N> {
        let v4 = set_of(self.v4.difference(&other.v4));
        AddressSet::of_parts(v4, set_of(self.v6.difference(&other.v6)))
    }
}

impl<N: Network> BitXor for &AddressSet<N> {
    type Output = AddressSet<N>;

    /// Returns the set of the addresses that are in one of the sets and not in both.
    ///
    /// # Examples
    ///
    /// ```
    /// use fosibegan::{AddressSet, IpNetwork};
    ///
    /// let before = AddressSet::from(["192.0.2.0/24".parse::<IpNetwork>()?]);
    /// let after = AddressSet::from(["192.0.2.0/25".parse::<IpNetwork>()?]);
    /// assert_eq!(&before ^ &after, AddressSet::from(["192.0.2.128/25".parse::<IpNetwork>()?]));
    /// # Ok::<(), Box<dyn std::error::Error>>(())
    /// ```
    fn bitxor(self, other: Self) -> AddressSet<N> {
        let v4 = exclusive_or(&self.v4, &other.v4);
        AddressSet::of_parts(v4, exclusive_or(&self.v6, &other.v6))
    }
}

impl<N: Network> Not for &AddressSet<N> {
    type Output = AddressSet<N>;

    /// Returns the set of all addresses that are not in this one: those of its family, or of both
    /// families if it holds both. **For an empty set that is every address.**
    ///
    /// # Examples
    ///
    /// ```
    /// use fosibegan::{AddressSet, Ipv4Network};
    ///
    /// let set: AddressSet<Ipv4Network> = ["0.0.0.0/1".parse::<Ipv4Network>()?].into();
    /// assert!((!&set).networks().eq(["128.0.0.0/1".parse()?]));
    /// # Ok::<(), Box<dyn std::error::Error>>(())
    /// ```
    fn not(self) -> AddressSet<N> {
        let v4 = if N::HAS_V4 {
            set_of(self.v4.complement())
        } else {
            self.v4.clone()
        };
        let v6 = if N::HAS_V6 {
            set_of(self.v6.complement())
        } else {
            self.v6.clone()
        };
        AddressSet::of_parts(v4, v6)
    }
}

impl<N: Network> Not for AddressSet<N> {
    type Output = AddressSet<N>;

    /// Returns the set of all addresses that are not in this one, as `!&set` does.
    fn not(self) -> AddressSet<N> {
        !&self
    }
}

impl<N: Network> BitOrAssign<&AddressSet<N>> for AddressSet<N> {
    /// Adds the addresses of the other set.
    ///
    /// # Examples
    ///
    /// ```
    /// use fosibegan::{AddressSet, IpNetwork};
    ///
    /// let mut set = AddressSet::from(["192.0.2.0/25".parse::<IpNetwork>()?]);
    /// set |= &AddressSet::from(["192.0.2.128/25".parse::<IpNetwork>()?]);
    /// assert_eq!(set, AddressSet::from(["192.0.2.0/24".parse::<IpNetwork>()?]));
    /// # Ok::<(), Box<dyn std::error::Error>>(())
    /// ```
    fn bitor_assign(&mut self, other: &Self) {
        add(&mut self.v4, &other.v4);
        add(&mut self.v6, &other.v6);
    }
}

impl<N: Network> BitAndAssign<&AddressSet<N>> for AddressSet<N> {
    /// Keeps only the addresses that are in the other set too.
    fn bitand_assign(&mut self, other: &Self) {
        *self = &*self & other;
    }
}

impl<N: Network> SubAssign<&AddressSet<N>> for AddressSet<N> {
    /// Removes the addresses of the other set.
    ///
    /// # Examples
    ///
    /// ```
    /// use fosibegan::{AddressSet, IpNetwork};
    ///
    /// let mut set = AddressSet::from(["192.0.2.0/24".parse::<IpNetwork>()?]);
    /// set -= &AddressSet::from(["192.0.2.128/25".parse::<IpNetwork>()?]);
    /// assert_eq!(set, AddressSet::from(["192.0.2.0/25".parse::<IpNetwork>()?]));
    /// # Ok::<(), Box<dyn std::error::Error>>(())
    /// ```
    fn sub_assign(&mut self, other: &Self) {
        subtract(&mut self.v4, &other.v4);
        subtract(&mut self.v6, &other.v6);
    }
}

impl<N: Network> BitXorAssign<&AddressSet<N>> for AddressSet<N> {
    /// Removes the addresses that are in both sets, and adds those that are only in the other.
    fn bitxor_assign(&mut self, other: &Self) {
        *self = &*self ^ other;
    }
}

/// The operators of sets that are owned, by those of references.
macro_rules! owned {
    ($($operator:ident $call:ident, $assign:ident $call_assign:ident;)*) => {$(
        impl<N: Network> $operator for AddressSet<N> {
            type Output = AddressSet<N>;

            fn $call(mut self, other: Self) -> AddressSet<N> {
                self.$call_assign(&other);
                self
            }
        }

        impl<N: Network> $operator<&AddressSet<N>> for AddressSet<N> {
            type Output = AddressSet<N>;

            fn $call(mut self, other: &Self) -> AddressSet<N> {
                self.$call_assign(other);
                self
            }
        }

        impl<N: Network> $operator<AddressSet<N>> for &AddressSet<N> {
            type Output = AddressSet<N>;

            fn $call(self, other: AddressSet<N>) -> AddressSet<N> {
                self.$call(&other)
            }
        }

        impl<N: Network> $assign for AddressSet<N> {
            fn $call_assign(&mut self, other: Self) {
                self.$call_assign(&other);
            }
        }
    )*};
}

owned! {
    BitOr bitor, BitOrAssign bitor_assign;
    BitAnd bitand, BitAndAssign bitand_assign;
    Sub sub, SubAssign sub_assign;
    BitXor bitxor, BitXorAssign bitxor_assign;
}
