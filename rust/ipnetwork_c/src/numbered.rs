// Written by scripts/plain out of crates/ipnetwork_c/src/numbered.rt

//! The addresses of the C structs as bare numbers, so that a search compares several without a
//! branch.

use crate::listed::Listed;
use fosibegan_core::ipnetwork_blocks::AddressSpace;

/// A C struct whose address is compared as a number.
pub(crate) trait Numbered<N: AddressSpace>: Listed<N> {
    /// The number type of the family's addresses.
    type Number: Copy;

    /// The octets of an address, as C passes it.
    type Octets;

    /// Returns the number of the address, host bits kept, whatever the prefix length is.
    fn own_number(&self) -> Self::Number;

    /// Returns the number of an address.
    fn number_of(addr: N::Addr) -> Self::Number;

    /// Returns the number that octets represent.
    fn number_in(octets: &Self::Octets) -> Self::Number;

    /// Returns the address that octets represent.
    fn address_in(octets: &Self::Octets) -> N::Addr;

    /// Returns whether the first number is at most the second.
    fn is_up_to(first: Self::Number, second: Self::Number) -> bool;

    /// Returns whether the address of a number is in the network of a struct whose prefix length
    /// was checked.
    fn has(&self, number: Self::Number) -> bool;

    /// Returns the part in which a number lies, if from `base` on each part has 2^`shift` numbers:
    /// the first part if the number is less than `base`.
    fn part_of(number: Self::Number, base: Self::Number, shift: u32) -> usize;

    /// Returns the binary logarithm of half the number of addresses.
    fn half() -> u32;
}
