// Written by scripts/plain out of crates/ipnetwork_family/src/address.rt

//! What networks need from their addresses.

use crate::plain_std::arrayvec::ArrayString;
use crate::ipnetwork_addr::{ADDRESS_TEXT_CAPACITY, AddrParseError};
use core::fmt::Debug;
use core::hash::Hash;

/// The addresses of one family. An address represents a number of `WIDTH` bits and is ordered by
/// it; a prefix length is the number of leading bits that are compared. No call allocates.
///
/// ```
/// # use fosibegan_core::in_examples::*;
/// assert_eq!(<Ipv4Addr as Address>::WIDTH, 32);
/// assert_eq!(<Ipv6Addr as Address>::WIDTH, 128);
/// ```
#[allow(private_bounds)]
pub trait Address: Copy + Ord + Hash + Debug + InnerAddress {
    /// The number of bits of an address, and the greatest prefix length: 32 for IPv4, 128 for IPv6.
    const WIDTH: u8;

    /// The address that a text names, or `refusal` if it names none.
    ///
    /// ```
    /// # use fosibegan_core::in_examples::*;
    /// # ended(|| {
    /// let address = <Ipv4Addr as Address>::read_bytes(b"192.0.2.1")?;
    /// assert_eq!(address, Ipv4Addr::new(192, 0, 2, 1));
    /// # Ok(())
    /// # });
    /// ```
    fn read_bytes(text: &[u8]) -> Result<Self, AddrParseError>;

    /// The prefix length that a text after the `/` of a network gives, or `None` if it gives none:
    /// a number or, for IPv4 only, a mask written as an address.
    ///
    /// ```
    /// # use fosibegan_core::in_examples::*;
    /// assert_eq!(Ipv4Addr::read_suffix(b"255.255.240.0"), Some(20));
    /// assert_eq!(Ipv6Addr::read_suffix(b"129"), None);
    /// ```
    fn read_suffix(text: &[u8]) -> Option<u8>;

    /// The error for a text that names no address of the family.
    ///
    /// ```
    /// # use fosibegan_core::in_examples::*;
    /// assert_eq!(Ipv4Addr::refusal(), AddrParseError::Ipv4);
    /// ```
    fn refusal() -> AddrParseError;

    /// The canonical text of the address.
    ///
    /// ```
    /// # use fosibegan_core::in_examples::*;
    /// let address = Ipv4Addr::new(192, 0, 2, 1);
    /// assert_eq!(Address::canonical(&address).as_str(), "192.0.2.1");
    /// ```
    fn canonical(&self) -> ArrayString<ADDRESS_TEXT_CAPACITY>;

    /// Does nothing. Its contract states that the texts of the family are unambiguous.
    #[doc(hidden)]
    fn law_texts();

    /// Does nothing. Its contract states that the address's number has `WIDTH` bits.
    #[doc(hidden)]
    fn law_of_width(self);

    /// The mask of a prefix length, which must be at most `WIDTH`: that many leading ones, followed
    /// by zeros.
    ///
    /// ```
    /// # use fosibegan_core::in_examples::*;
    /// assert_eq!(Ipv4Addr::mask(20), Ipv4Addr::new(255, 255, 240, 0));
    /// ```
    ///
    /// # Panics
    ///
    /// Panics if the prefix length is greater than `WIDTH`.
    fn mask(prefix: u8) -> Self;

    /// The prefix length of a mask; `None` if the address is not a mask.
    ///
    /// ```
    /// # use fosibegan_core::in_examples::*;
    /// assert_eq!(Ipv4Addr::new(255, 255, 240, 0).prefix_of_mask(), Some(20));
    /// assert_eq!(Ipv4Addr::new(255, 0, 255, 0).prefix_of_mask(), None);
    /// ```
    fn prefix_of_mask(self) -> Option<u8>;

    /// The address with the bits after the first `prefix` set. `prefix` must be at most `WIDTH`.
    ///
    /// ```
    /// # use fosibegan_core::in_examples::*;
    /// assert_eq!(Ipv4Addr::new(192, 0, 2, 77).greatest(26), Ipv4Addr::new(192, 0, 2, 127));
    /// ```
    ///
    /// # Panics
    ///
    /// Panics if the prefix length is greater than `WIDTH`.
    fn greatest(self, prefix: u8) -> Self;

    /// The number of leading bits that two addresses share: the greatest prefix length of a block
    /// that holds both.
    ///
    /// ```
    /// # use fosibegan_core::in_examples::*;
    /// let address = Ipv4Addr::new(192, 0, 2, 77);
    /// assert_eq!(address.shared_bits(Ipv4Addr::new(192, 0, 2, 127)), 26);
    /// ```
    fn shared_bits(self, other: Self) -> u8;

    /// The number of trailing zero bits; `WIDTH` for the address 0.
    ///
    /// ```
    /// # use fosibegan_core::in_examples::*;
    /// assert_eq!(Ipv4Addr::new(255, 255, 240, 0).trailing_zeros(), 12);
    /// ```
    fn trailing_zeros(self) -> u8;
}

/// What `Address` has for the library alone: nothing checks what it needs.
pub(crate) trait InnerAddress: Copy + Ord + Hash + Debug {
    /// The address with the bits after the first `prefix` cleared. `prefix` must be at most
    /// `WIDTH`.
    fn least(self, prefix: u8) -> Self;

    /// Whether two addresses agree in their first `prefix` bits. `prefix` must be at most `WIDTH`.
    fn agrees(self, other: Self, prefix: u8) -> bool;

    /// The next address. This one must not be the last.
    fn next(self) -> Self;

    /// The previous address. This one must not be the first.
    fn previous(self) -> Self;

    /// The address `offset` places after this one. It must not exceed the last address of the
    /// family.
    fn plus(self, offset: u128) -> Self;

    /// How many places `last` comes after this address. It must not come before it.
    fn distance(self, last: Self) -> u128;
}
