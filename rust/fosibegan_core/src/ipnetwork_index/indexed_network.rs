// Written by scripts/plain out of crates/ipnetwork_index/src/indexed_network.rt

//! What an index needs from a family of addresses.

use crate::ipnetwork_index::key::Key;
use crate::ipnetwork_addr::{Ipv4Addr, Ipv6Addr};
use crate::ipnetwork_blocks::AddressSpace;
use crate::ipnetwork_family::{Ipv4Network, Ipv6Network};

/// Networks whose addresses can be indexed as plain numbers, which are compared as a whole. No call
/// allocates.
///
/// ```
/// # use fosibegan_core::in_examples::*;
/// assert_eq!(Ipv4Network::number_of(Ipv4Addr::new(0, 0, 1, 2)), 258);
/// ```
pub trait IndexedNetwork: AddressSpace {
    /// The plain numbers of the family.
    type Number: Key;

    /// The high halves of these numbers.
    type High: Key;

    /// The number of an address.
    ///
    /// ```
    /// # use fosibegan_core::in_examples::*;
    /// # ended(|| {
    /// assert_eq!(Ipv6Network::number_of("::1:2".parse()?), 65538);
    /// # Ok(())
    /// # });
    /// ```
    fn number_of(addr: Self::Addr) -> Self::Number;

    /// The number of the last address.
    ///
    /// ```
    /// # use fosibegan_core::in_examples::*;
    /// assert_eq!(Ipv4Network::greatest(), u32::MAX);
    /// ```
    fn greatest() -> Self::Number;

    /// The high half of a number, or the number itself if it is not compared by halves.
    ///
    /// ```
    /// # use fosibegan_core::in_examples::*;
    /// assert_eq!(Ipv6Network::high_of(5 << 64 | 7), 5);
    /// assert_eq!(Ipv4Network::high_of(7), 7);
    /// ```
    fn high_of(number: Self::Number) -> Self::High;

    /// Whether the number is known to be the greatest with its high half.
    ///
    /// ```
    /// # use fosibegan_core::in_examples::*;
    /// assert!(Ipv6Network::ends_high((5 << 64) - 1));
    /// assert!(!Ipv6Network::ends_high(5 << 64));
    /// ```
    fn ends_high(number: Self::Number) -> bool;

    /// The last 32 bits of a number, which are all bits of an IPv4 address.
    ///
    /// ```
    /// # use fosibegan_core::in_examples::*;
    /// assert_eq!(Ipv6Network::low_word(5 << 32 | 7), 7);
    /// assert_eq!(Ipv4Network::low_word(7), 7);
    /// ```
    fn low_word(number: Self::Number) -> u32;

    /// Whether numbers are to be compared by halves. Those of IPv6 addresses are, since most
    /// networks end where a high half does.
    ///
    /// ```
    /// # use fosibegan_core::in_examples::*;
    /// assert!(Ipv6Network::has_halves());
    /// ```
    fn has_halves() -> bool;
}

impl IndexedNetwork for Ipv4Network {
    type Number = u32;

    type High = u32;

    #[inline]
    fn number_of(addr: Ipv4Addr) -> u32 {
        u32::from(addr)
    }

    #[inline]
    fn greatest() -> u32 {
        u32::MAX
    }

    #[inline]
    fn high_of(number: u32) -> u32 {
        number
    }

    #[inline]
    fn ends_high(_number: u32) -> bool {
        true
    }

    #[inline]
    fn low_word(number: u32) -> u32 {
        number
    }

    #[inline]
    fn has_halves() -> bool {
        false
    }
}

impl IndexedNetwork for Ipv6Network {
    type Number = u128;

    type High = u64;

    #[inline]
    fn number_of(addr: Ipv6Addr) -> u128 {
        u128::from(addr)
    }

    #[inline]
    fn greatest() -> u128 {
        u128::MAX
    }

    #[inline]
    fn high_of(number: u128) -> u64 {
        (number >> 64) as u64
    }

    #[inline]
    fn ends_high(number: u128) -> bool {
        number % (1 << 64) == (1 << 64) - 1
    }

    #[inline]
    fn low_word(number: u128) -> u32 {
        (number % (1 << 32)) as u32
    }

    #[inline]
    fn has_halves() -> bool {
        true
    }
}
