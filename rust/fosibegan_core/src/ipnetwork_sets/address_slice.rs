// Written by scripts/plain out of crates/ipnetwork_sets/src/address_slice.rt

//! A set of addresses over a borrowed list of its blocks.

use crate::ipnetwork_sets::address_set::AddressSet;
use crate::ipnetwork_sets::check::is_address_set;
use crate::ipnetwork_sets::common::Intersection;
use crate::ipnetwork_sets::difference::Difference;
use crate::ipnetwork_sets::search;
use crate::ipnetwork_sets::union::Union;
use crate::ipnetwork_blocks::AddressSpace;

/// A set of addresses of one family over a borrowed list of its maximal blocks, in ascending order.
/// It has the queries of an `AddressSet`, for a list that is stored elsewhere, such as in a table
/// or an array.
///
/// ```
/// # use fosibegan_core::in_examples::*;
/// # ended(|| {
/// let blocks: [Ipv4Network; 2] = ["10.0.0.0/8".parse()?, "192.0.2.0/24".parse()?];
/// let set = AddressSlice::from_blocks(&blocks).unwrap();
/// assert!(set.contains(Ipv4Addr::new(192, 0, 2, 1)));
/// # Ok(())
/// # });
/// ```
#[derive(Clone, Debug)]
pub struct AddressSlice<'a, N: AddressSpace> {
    blocks: &'a [N],
}

impl<'a, N: AddressSpace> AddressSlice<'a, N> {
    /// The set with these blocks, if they are maximal in it, have no host bits and are in ascending
    /// order; `None` if not. Goes over the list once.
    ///
    /// ```
    /// # use fosibegan_core::in_examples::*;
    /// # ended(|| {
    /// let halves: [Ipv4Network; 2] = ["192.0.2.0/25".parse()?, "192.0.2.128/25".parse()?];
    /// assert!(AddressSlice::from_blocks(&halves).is_none());
    /// # Ok(())
    /// # });
    /// ```
    pub fn from_blocks(blocks: &'a [N]) -> Option<Self> {
        if is_address_set::<N, N>(blocks) {
            return Some(AddressSlice { blocks });
        }
        None
    }

    // The set with these blocks.
    pub(crate) fn of_blocks(blocks: &'a [N]) -> Self {
        AddressSlice { blocks }
    }

    /// The blocks, in ascending order.
    ///
    /// ```
    /// # use fosibegan_core::in_examples::*;
    /// # ended(|| {
    /// let list: [Ipv4Network; 1] = ["192.0.2.0/24".parse()?];
    /// assert_eq!(AddressSlice::from_blocks(&list).unwrap().blocks(), list.as_slice());
    /// # Ok(())
    /// # });
    /// ```
    pub fn blocks(&self) -> &'a [N] {
        self.blocks
    }

    /// Whether the set has no addresses.
    ///
    /// ```
    /// # use fosibegan_core::in_examples::*;
    /// assert!(AddressSlice::<Ipv4Network>::from_blocks(&[]).unwrap().is_empty());
    /// ```
    pub fn is_empty(&self) -> bool {
        self.blocks.is_empty()
    }

    /// Whether the address is in the set. Takes one binary search over the blocks.
    ///
    /// ```
    /// # use fosibegan_core::in_examples::*;
    /// # ended(|| {
    /// let list: [Ipv4Network; 1] = ["192.0.2.0/25".parse()?];
    /// let set = AddressSlice::from_blocks(&list).unwrap();
    /// assert!(!set.contains(Ipv4Addr::new(192, 0, 2, 128)));
    /// # Ok(())
    /// # });
    /// ```
    pub fn contains(&self, addr: N::Addr) -> bool {
        search::contains(self.blocks, addr)
    }

    /// Whether each address of the network is in the set. Host bits are ignored. Takes one binary
    /// search over the blocks.
    ///
    /// ```
    /// # use fosibegan_core::in_examples::*;
    /// # ended(|| {
    /// let list: [Ipv4Network; 1] = ["192.0.2.0/25".parse()?];
    /// let set = AddressSlice::from_blocks(&list).unwrap();
    /// assert!(set.covers("192.0.2.64/26".parse()?));
    /// # Ok(())
    /// # });
    /// ```
    pub fn covers(&self, network: N) -> bool {
        search::covers(self.blocks, network)
    }

    /// Whether some address of the network is in the set. Host bits are ignored. Takes one binary
    /// search over the blocks.
    ///
    /// ```
    /// # use fosibegan_core::in_examples::*;
    /// # ended(|| {
    /// let list: [Ipv4Network; 1] = ["192.0.2.0/25".parse()?];
    /// let set = AddressSlice::from_blocks(&list).unwrap();
    /// assert!(set.overlaps("192.0.2.0/24".parse()?));
    /// # Ok(())
    /// # });
    /// ```
    pub fn overlaps(&self, network: N) -> bool {
        search::overlaps(self.blocks, network)
    }

    /// The blocks of the addresses that are in both sets, in ascending order. Goes over both lists
    /// once, as the iterator advances.
    ///
    /// ```
    /// # use fosibegan_core::in_examples::*;
    /// # ended(|| {
    /// let list: [Ipv4Network; 1] = ["192.0.2.0/25".parse()?];
    /// let others: [Ipv4Network; 1] = ["192.0.2.0/26".parse()?];
    /// let common = AddressSlice::from_blocks(&list).unwrap().intersection(&AddressSlice::from_blocks(&others).unwrap());
    /// assert!(common.eq(others));
    /// # Ok(())
    /// # });
    /// ```
    pub fn intersection(&self, other: &AddressSlice<'a, N>) -> Intersection<'a, N> {
        Intersection::of_sets(self.blocks(), other.blocks())
    }

    /// The blocks of the addresses that are in this set and not in the other, in ascending order.
    /// Goes over both lists once, as the iterator advances.
    ///
    /// ```
    /// # use fosibegan_core::in_examples::*;
    /// # ended(|| {
    /// let list: [Ipv4Network; 1] = ["192.0.2.0/25".parse()?];
    /// let others: [Ipv4Network; 1] = ["192.0.2.0/26".parse()?];
    /// let left = AddressSlice::from_blocks(&list).unwrap().difference(&AddressSlice::from_blocks(&others).unwrap());
    /// assert!(left.eq(["192.0.2.64/26".parse()?]));
    /// # Ok(())
    /// # });
    /// ```
    pub fn difference(&self, other: &AddressSlice<'a, N>) -> Difference<'a, N> {
        Difference::of_sets(self.blocks(), other.blocks())
    }

    /// The blocks of the addresses that are in the network and not in the set, in ascending order:
    /// the free part of the network. Host bits are ignored. Goes over the list once, as the
    /// iterator advances.
    ///
    /// ```
    /// # use fosibegan_core::in_examples::*;
    /// # ended(|| {
    /// let list: [Ipv4Network; 1] = ["192.0.2.0/25".parse()?];
    /// let mut free = AddressSlice::from_blocks(&list).unwrap().free_in("192.0.2.0/24".parse()?);
    /// assert_eq!(free.next(), Some("192.0.2.128/25".parse()?));
    /// # Ok(())
    /// # });
    /// ```
    pub fn free_in(&self, network: N) -> Difference<'a, N> {
        Difference::within(network, self.blocks())
    }

    /// The blocks of the addresses that are in one of the two sets or in both, in ascending order.
    /// Goes over both lists once, as the iterator advances.
    ///
    /// ```
    /// # use fosibegan_core::in_examples::*;
    /// # ended(|| {
    /// let list: [Ipv4Network; 1] = ["192.0.2.0/25".parse()?];
    /// let others: [Ipv4Network; 1] = ["192.0.2.128/25".parse()?];
    /// let both = AddressSlice::from_blocks(&list).unwrap().union_blocks(&AddressSlice::from_blocks(&others).unwrap());
    /// assert!(both.eq(["192.0.2.0/24".parse()?]));
    /// # Ok(())
    /// # });
    /// ```
    pub fn union_blocks(&self, other: &AddressSlice<'a, N>) -> Union<'a, N> {
        Union::of_sets(self.blocks(), other.blocks())
    }

    /// Whether each address of this set is in the other. Goes over both lists at most once.
    ///
    /// ```
    /// # use fosibegan_core::in_examples::*;
    /// # ended(|| {
    /// let list: [Ipv4Network; 1] = ["192.0.2.0/25".parse()?];
    /// let others: [Ipv4Network; 1] = ["192.0.2.0/26".parse()?];
    /// let (wide, narrow) = (AddressSlice::from_blocks(&list).unwrap(), AddressSlice::from_blocks(&others).unwrap());
    /// assert!(narrow.is_subset_of(&wide) && !wide.is_subset_of(&narrow));
    /// # Ok(())
    /// # });
    /// ```
    pub fn is_subset_of(&self, other: &AddressSlice<'a, N>) -> bool {
        let mut left = self.difference(other);
        left.next().is_none()
    }

    /// Whether no address is in both sets. Goes over both lists at most once.
    ///
    /// ```
    /// # use fosibegan_core::in_examples::*;
    /// # ended(|| {
    /// let list: [Ipv4Network; 1] = ["192.0.2.0/25".parse()?];
    /// let others: [Ipv4Network; 1] = ["192.0.2.128/25".parse()?];
    /// let set = AddressSlice::from_blocks(&list).unwrap();
    /// assert!(set.is_disjoint_from(&AddressSlice::from_blocks(&others).unwrap()));
    /// # Ok(())
    /// # });
    /// ```
    pub fn is_disjoint_from(&self, other: &AddressSlice<'a, N>) -> bool {
        let mut common = self.intersection(other);
        common.next().is_none()
    }
}

impl<N: AddressSpace> AddressSet<N> {
    /// The same set, as a slice that borrows the list of this one.
    ///
    /// ```
    /// # use fosibegan_core::in_examples::*;
    /// # use fosibegan_core::plain_std::vec;
    /// # ended(|| {
    /// let set = AddressSet::from_networks(vec![in Global; "192.0.2.0/25".parse::<Ipv4Network>()?]?);
    /// assert!(set.as_slice().contains(Ipv4Addr::new(192, 0, 2, 127)));
    /// # Ok(())
    /// # });
    /// ```
    pub fn as_slice(&self) -> AddressSlice<'_, N> {
        AddressSlice::of_blocks(self.blocks())
    }
}
