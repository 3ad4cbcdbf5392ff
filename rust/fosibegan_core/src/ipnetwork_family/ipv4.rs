// Written by scripts/plain out of crates/ipnetwork_family/src/ipv4.rt

//! IPv4: the implementation of `Address`, the number of members and the nth member, and masks.

use crate::ipnetwork_family::network::mask_to_prefix;
use crate::ipnetwork_family::parse::read_prefix;
use crate::ipnetwork_family::{Address, IpNetworkError, Network};
use crate::plain_std::arrayvec::ArrayString;
use crate::ipnetwork_addr::{ADDRESS_TEXT_CAPACITY, AddrParseError, Ipv4Addr};

impl Address for Ipv4Addr {
    const WIDTH: u8 = 32;

    #[inline]
    fn read_bytes(text: &[u8]) -> Result<Ipv4Addr, AddrParseError> {
        Ipv4Addr::read_bytes(text)
    }

    #[inline]
    fn read_suffix(text: &[u8]) -> Option<u8> {
        if let Some(prefix) = read_prefix(text, 32) {
            return Some(prefix);
        }
        // Does nothing. The proof needs the law: the text names no other address, so no other mask.
        match Ipv4Addr::read_bytes(text) {
            Ok(mask) => mask.prefix_of_mask(),
            Err(_) => None,
        }
    }

    #[inline]
    fn refusal() -> AddrParseError {
        AddrParseError::Ipv4
    }

    #[inline]
    fn canonical(&self) -> ArrayString<ADDRESS_TEXT_CAPACITY> {
        Ipv4Addr::canonical(self)
    }

    #[inline]
    fn law_texts() {
    }

    #[inline]
    fn law_of_width(self) {
        let _ = self.octets();
    }

    #[inline]
    fn mask(prefix: u8) -> Ipv4Addr {
        assert!(prefix <= Self::WIDTH, "mask: the prefix length is greater than `WIDTH`");
        Ipv4Addr::from(!host_ones(prefix))
    }

    #[inline]
    fn prefix_of_mask(self) -> Option<u8> {
        let mask = u32::from(self);
        let prefix = (!mask).leading_zeros() as u8;
        if !mask == host_ones(prefix) {
            Some(prefix)
        } else {
            None
        }
    }

    #[inline]
    fn greatest(self, prefix: u8) -> Ipv4Addr {
        assert!(prefix <= Self::WIDTH, "greatest: the prefix length is greater than `WIDTH`");
        let ones = host_ones(prefix);
        Ipv4Addr::from(u32::from(self) & !ones | ones)
    }

    #[inline]
    fn shared_bits(self, other: Ipv4Addr) -> u8 {
        (u32::from(self) ^ u32::from(other)).leading_zeros() as u8
    }

    #[inline]
    fn trailing_zeros(self) -> u8 {
        u32::from(self).trailing_zeros() as u8
    }
}

impl crate::ipnetwork_family::address::InnerAddress for Ipv4Addr {
    #[inline]
    fn least(self, prefix: u8) -> Ipv4Addr {
        Ipv4Addr::from(u32::from(self) & !host_ones(prefix))
    }

    #[inline]
    fn agrees(self, other: Ipv4Addr, prefix: u8) -> bool {
        let mask = !host_ones(prefix);
        u32::from(self) & mask == u32::from(other) & mask
    }

    #[inline]
    fn next(self) -> Ipv4Addr {
        Ipv4Addr::from(u32::from(self) + 1)
    }

    #[inline]
    fn previous(self) -> Ipv4Addr {
        Ipv4Addr::from(u32::from(self) - 1)
    }

    #[inline]
    fn plus(self, offset: u128) -> Ipv4Addr {
        Ipv4Addr::from(u32::from(self) + offset as u32)
    }

    #[inline]
    fn distance(self, last: Ipv4Addr) -> u128 {
        u128::from(u32::from(last) - u32::from(self))
    }
}

/// The number with ones in all bits after the first `prefix`.
#[inline]
fn host_ones(prefix: u8) -> u32 {
    // In 64 bits, a shift by 32 needs no special case.
    (u64::from(u32::MAX) >> prefix) as u32
}

impl Network<Ipv4Addr> {
    /// The number of members. At prefix length 0, where that would need 33 bits, the result is one
    /// less: 4,294,967,295.
    ///
    /// ```
    /// # use fosibegan_core::in_examples::*;
    /// # ended(|| {
    /// let network: Ipv4Network = "192.0.2.77/26".parse()?;
    /// assert_eq!(network.size(), 64);
    /// # Ok(())
    /// # });
    /// ```
    #[inline]
    pub fn size(&self) -> u32 {
        host_ones(self.prefix()).saturating_add(1)
    }

    /// The member at index `n`, counted from 0 in ascending order; `None` if `n` is not less than
    /// `size`.
    ///
    /// ```
    /// # use fosibegan_core::in_examples::*;
    /// # ended(|| {
    /// let network: Ipv4Network = "192.0.2.77/26".parse()?;
    /// assert_eq!(network.nth(1), Some(Ipv4Addr::new(192, 0, 2, 65)));
    /// assert_eq!(network.nth(64), None);
    /// # Ok(())
    /// # });
    /// ```
    #[inline]
    pub fn nth(self, n: u32) -> Option<Ipv4Addr> {
        if n < self.size() {
            Some(Ipv4Addr::from(u32::from(self.network()) + n))
        } else {
            None
        }
    }
}

/// The prefix length of a mask, or `InvalidPrefix` if the address is not one of the 33 masks.
///
/// ```
/// # use fosibegan_core::in_examples::*;
/// assert_eq!(ipv4_mask_to_prefix(Ipv4Addr::new(255, 255, 240, 0)), Ok(20));
/// ```
#[inline]
pub fn ipv4_mask_to_prefix(mask: Ipv4Addr) -> Result<u8, IpNetworkError> {
    mask_to_prefix(mask)
}
