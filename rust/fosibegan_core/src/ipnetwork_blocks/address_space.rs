// Written by scripts/plain out of crates/ipnetwork_blocks/src/address_space.rt

//! Operations on addresses that blocks need beyond `CidrNetwork`.

use crate::ipnetwork_family::{Address, CidrNetwork, Network};

/// The addresses of a family of networks, for code that steps from one address to the next or looks
/// at their bits. Every `Network<A>` implements it. No call allocates.
///
/// ```
/// # use fosibegan_core::in_examples::*;
/// let first = Ipv4Network::whole().network();
/// let next = Ipv4Network::next_address(first);
/// assert_eq!(next, Some(Ipv4Addr::new(0, 0, 0, 1)));
/// ```
#[allow(private_bounds)]
pub trait AddressSpace: CidrNetwork + InnerAddressSpace {
    /// Returns the network of all addresses: the address 0 with the prefix length 0.
    ///
    /// ```
    /// # use fosibegan_core::in_examples::*;
    /// assert_eq!(Ipv4Network::whole().canonical().as_str(), "0.0.0.0/0");
    /// ```
    fn whole() -> Self;

    /// Returns the network without host bits that has this prefix length and contains the address.
    /// The prefix length must be at most `WIDTH`.
    ///
    /// ```
    /// # use fosibegan_core::in_examples::*;
    /// let block = Ipv4Network::block_at(Ipv4Addr::new(192, 0, 2, 130), 25);
    /// assert_eq!(block.canonical().as_str(), "192.0.2.128/25");
    /// ```
    ///
    /// # Panics
    ///
    /// Panics if the prefix length is greater than `WIDTH`.
    fn block_at(addr: Self::Addr, prefix: u8) -> Self;

    /// Returns the next address, or `None` if this is the last address of the family.
    ///
    /// ```
    /// # use fosibegan_core::in_examples::*;
    /// let next = Ipv4Network::next_address(Ipv4Addr::new(10, 0, 0, 255));
    /// assert_eq!(next, Some(Ipv4Addr::new(10, 0, 1, 0)));
    /// ```
    fn next_address(addr: Self::Addr) -> Option<Self::Addr>;

    /// Returns the previous address, or `None` if this is the first address of the family.
    ///
    /// ```
    /// # use fosibegan_core::in_examples::*;
    /// let previous = Ipv4Network::previous_address(Ipv4Addr::new(10, 0, 1, 0));
    /// assert_eq!(previous, Some(Ipv4Addr::new(10, 0, 0, 255)));
    /// ```
    fn previous_address(addr: Self::Addr) -> Option<Self::Addr>;

    /// Returns the number of leading bits that two addresses share: the greatest prefix length at
    /// which one block contains both.
    ///
    /// ```
    /// # use fosibegan_core::in_examples::*;
    /// let addr = Ipv4Addr::new(10, 0, 0, 255);
    /// assert_eq!(Ipv4Network::shared_bits(addr, Ipv4Addr::new(10, 0, 1, 0)), 23);
    /// ```
    fn shared_bits(addr: Self::Addr, other: Self::Addr) -> u8;

    /// Returns the number of trailing zero bits of the address: `WIDTH` for the address 0.
    ///
    /// ```
    /// # use fosibegan_core::in_examples::*;
    /// assert_eq!(Ipv4Network::trailing_zeros(Ipv4Addr::new(10, 0, 1, 0)), 8);
    /// ```
    fn trailing_zeros(addr: Self::Addr) -> u8;
}

/// What `AddressSpace` has for the library alone: nothing checks what it needs.
pub(crate) trait InnerAddressSpace: CidrNetwork {
    /// Returns the address `offset` addresses after this one. It must not be past the last address
    /// of the family.
    fn plus(addr: Self::Addr, offset: u128) -> Self::Addr;
}

impl<A: Address> AddressSpace for Network<A> {
    fn whole() -> Network<A> {
        Self::block_at(A::mask(0), 0)
    }

    fn block_at(addr: A, prefix: u8) -> Network<A> {
        let Some(block) = Network::block(addr, prefix) else {
            panic!("block_at: the prefix length is greater than `WIDTH`")
        };
        block
    }

    fn next_address(addr: A) -> Option<A> {
        addr.law_of_width();
        if addr != A::mask(A::WIDTH) {
            return Some(addr.next());
        }
        None
    }

    fn previous_address(addr: A) -> Option<A> {
        if addr != A::mask(0) {
            return Some(addr.previous());
        }
        None
    }

    fn shared_bits(addr: A, other: A) -> u8 {
        addr.shared_bits(other)
    }

    fn trailing_zeros(addr: A) -> u8 {
        addr.trailing_zeros()
    }
}

impl<A: Address> InnerAddressSpace for Network<A> {
    fn plus(addr: A, offset: u128) -> A {
        addr.plus(offset)
    }
}
