// Written by scripts/plain out of crates/ipnetwork_family/src/ipv6.rt

//! IPv6: the implementation of `Address`, the number of members and the nth member, and masks.

use crate::ipnetwork_family::mask_table::mask_segments;
use crate::ipnetwork_family::network::mask_to_prefix;
use crate::ipnetwork_family::parse::read_prefix;
use crate::ipnetwork_family::segments::{agree, filled, kept, leading_ones};
use crate::ipnetwork_family::{Address, IpNetworkError, Network};
use crate::plain_std::arrayvec::ArrayString;
use crate::ipnetwork_addr::{ADDRESS_TEXT_CAPACITY, AddrParseError, Ipv6Addr};

impl Address for Ipv6Addr {
    const WIDTH: u8 = 128;

    #[inline]
    fn read_bytes(text: &[u8]) -> Result<Ipv6Addr, AddrParseError> {
        Ipv6Addr::read_bytes(text)
    }

    #[inline]
    fn read_suffix(text: &[u8]) -> Option<u8> {
        read_prefix(text, 128)
    }

    #[inline]
    fn refusal() -> AddrParseError {
        AddrParseError::Ipv6
    }

    #[inline]
    fn canonical(&self) -> ArrayString<ADDRESS_TEXT_CAPACITY> {
        Ipv6Addr::canonical(self)
    }

    #[inline]
    fn law_texts() {
    }

    #[inline]
    fn law_of_width(self) {
        let _ = self.segments();
    }

    #[inline]
    fn mask(prefix: u8) -> Ipv6Addr {
        assert!(prefix <= Self::WIDTH, "mask: the prefix length is greater than `WIDTH`");
        Ipv6Addr::from(*mask_segments(prefix))
    }

    #[inline]
    fn prefix_of_mask(self) -> Option<u8> {
        let segments = self.segments();
        let prefix = leading_ones(&segments);
        if segments == *mask_segments(prefix) {
            Some(prefix)
        } else {
            None
        }
    }

    #[inline]
    fn greatest(self, prefix: u8) -> Ipv6Addr {
        assert!(prefix <= Self::WIDTH, "greatest: the prefix length is greater than `WIDTH`");
        Ipv6Addr::from(filled(&self.segments(), mask_segments(prefix)))
    }

    #[inline]
    fn shared_bits(self, other: Ipv6Addr) -> u8 {
        (u128::from(self) ^ u128::from(other)).leading_zeros() as u8
    }

    #[inline]
    fn trailing_zeros(self) -> u8 {
        u128::from(self).trailing_zeros() as u8
    }
}

impl crate::ipnetwork_family::address::InnerAddress for Ipv6Addr {
    #[inline]
    fn least(self, prefix: u8) -> Ipv6Addr {
        Ipv6Addr::from(kept(&self.segments(), mask_segments(prefix)))
    }

    #[inline]
    fn agrees(self, other: Ipv6Addr, prefix: u8) -> bool {
        agree(&self.segments(), &other.segments(), mask_segments(prefix))
    }

    #[inline]
    fn next(self) -> Ipv6Addr {
        Ipv6Addr::from(u128::from(self) + 1)
    }

    #[inline]
    fn previous(self) -> Ipv6Addr {
        Ipv6Addr::from(u128::from(self) - 1)
    }

    #[inline]
    fn plus(self, offset: u128) -> Ipv6Addr {
        Ipv6Addr::from(u128::from(self) + offset)
    }

    #[inline]
    fn distance(self, last: Ipv6Addr) -> u128 {
        u128::from(last) - u128::from(self)
    }
}

/// The number with ones in all bits after the first `prefix`.
#[inline]
fn host_ones(prefix: u8) -> u128 {
    u128::MAX.checked_shr(u32::from(prefix)).unwrap_or(0)
}

impl Network<Ipv6Addr> {
    /// The number of members. At prefix length 0, where that would need 129 bits, the result is one
    /// less: 2^128 - 1.
    ///
    /// ```
    /// # use fosibegan_core::in_examples::*;
    /// # ended(|| {
    /// let network: Ipv6Network = "2001:db8::/64".parse()?;
    /// assert_eq!(network.size(), 1 << 64);
    /// # Ok(())
    /// # });
    /// ```
    #[inline]
    pub fn size(&self) -> u128 {
        host_ones(self.prefix()).saturating_add(1)
    }

    /// The member at index `n`, counted from 0 in ascending order; `None` if `n` is not less than
    /// `size`.
    ///
    /// ```
    /// # use fosibegan_core::in_examples::*;
    /// # ended(|| {
    /// let network: Ipv6Network = "2001:db8::1/64".parse()?;
    /// assert_eq!(network.nth(0xffff), Some("2001:db8::ffff".parse::<Ipv6Addr>()?));
    /// # Ok(())
    /// # });
    /// ```
    #[inline]
    pub fn nth(self, n: u128) -> Option<Ipv6Addr> {
        if n < self.size() {
            Some(Ipv6Addr::from(u128::from(self.network()) + n))
        } else {
            None
        }
    }
}

/// The prefix length of a mask, or `InvalidPrefix` if the address is not one of the 129 masks.
///
/// ```
/// # use fosibegan_core::in_examples::*;
/// # ended(|| {
/// let mask: Ipv6Addr = "ffff:ffff:ffff:ffff::".parse()?;
/// assert_eq!(ipv6_mask_to_prefix(mask), Ok(64));
/// # Ok(())
/// # });
/// ```
#[inline]
pub fn ipv6_mask_to_prefix(mask: Ipv6Addr) -> Result<u8, IpNetworkError> {
    mask_to_prefix(mask)
}
