// Written by scripts/plain out of crates/ipnetwork_addr/src/ipv6.rt

//! IPv6 addresses.

use crate::ipnetwork_addr::canonical::canonical_text;
use crate::ipnetwork_addr::colons::read_address;
use crate::ipnetwork_addr::{ADDRESS_TEXT_CAPACITY, AddrParseError, segments};
use crate::plain_std::arrayvec::ArrayString;
use core::cmp::Ordering;
use core::fmt;
use core::str::FromStr;

/// An IPv6 address of 128 bits, ordered by its number.
///
/// ```
/// # use fosibegan_core::in_examples::*;
/// # ended(|| {
/// let address: Ipv6Addr = "::1:2".parse()?;
/// assert_eq!(u128::from(address), 0x1_0002);
/// # Ok(())
/// # });
/// ```
#[derive(Clone, Copy, Debug)]
pub struct Ipv6Addr {
    // The eight segments, lowest first. On a little-endian machine each half of the address is thus
    // stored as one number of 64 bits; `order` compares these.
    low_first: [u16; 8],
}

impl Ipv6Addr {
    /// Creates the address `a:b:c:d:e:f:g:h`.
    ///
    /// ```
    /// # use fosibegan_core::in_examples::*;
    /// let address = Ipv6Addr::new(0x2001, 0xdb8, 0, 0, 0, 0, 0, 1);
    /// assert_eq!(address.canonical().as_str(), "2001:db8::1");
    /// ```
    #[inline]
    pub fn new(a: u16, b: u16, c: u16, d: u16, e: u16, f: u16, g: u16, h: u16) -> Self {
        Ipv6Addr {
            low_first: [h, g, f, e, d, c, b, a],
        }
    }

    /// Returns the eight groups, highest first.
    ///
    /// ```
    /// # use fosibegan_core::in_examples::*;
    /// # ended(|| {
    /// let address: Ipv6Addr = "2001:db8::1".parse()?;
    /// assert_eq!(address.segments(), [0x2001, 0xdb8, 0, 0, 0, 0, 0, 1]);
    /// # Ok(())
    /// # });
    /// ```
    #[inline]
    pub fn segments(&self) -> [u16; 8] {
        segments::reversed(&self.low_first)
    }

    /// Returns the sixteen octets, highest first.
    ///
    /// ```
    /// # use fosibegan_core::in_examples::*;
    /// # ended(|| {
    /// let address: Ipv6Addr = "2001:db8::1".parse()?;
    /// assert_eq!(address.octets(), [32, 1, 13, 184, 0, 0, 0, 0, 0, 0, 0, 0, 0, 0, 0, 1]);
    /// # Ok(())
    /// # });
    /// ```
    #[inline]
    pub fn octets(&self) -> [u8; 16] {
        segments::octets_high_first(&self.segments())
    }

    /// Reads the address that a text names: eight groups of one to four hex digits of either case,
    /// joined by `:`. The last two groups may be written as an IPv4 text, and `::` may once replace
    /// one or more zero groups (RFC 4291, section 2.2). Nothing may come before or after. For any
    /// other text the error is `AddrParseError::Ipv6`.
    ///
    /// ```
    /// # use fosibegan_core::in_examples::*;
    /// let dotted = Ipv6Addr::read_bytes(b"64:ff9b::192.0.2.33");
    /// assert_eq!(dotted, Ok(Ipv6Addr::new(0x64, 0xff9b, 0, 0, 0, 0, 0xc000, 0x221)));
    /// assert_eq!(Ipv6Addr::read_bytes(b"1::2::3"), Err(AddrParseError::Ipv6));
    /// ```
    #[inline(always)]
    pub fn read_bytes(text: &[u8]) -> Result<Self, AddrParseError> {
        match read_address(text) {
            Some((high, low)) => Ok(Ipv6Addr::from_halves(high, low)),
            None => Err(AddrParseError::Ipv6),
        }
    }

    /// Returns the canonical text, at most 39 bytes (RFC 5952). For an address in `::ffff:0:0/96`
    /// this is `::ffff:` and an IPv4 text (section 5). For any other it is the groups in shortest
    /// lower-case hex, with `::` for the longest run of two or more zero groups, the leftmost if
    /// several are equally long (section 4).
    ///
    /// ```
    /// # use fosibegan_core::in_examples::*;
    /// # ended(|| {
    /// let address: Ipv6Addr = "2001:0DB8:0:0:1:0:0:1".parse()?;
    /// assert_eq!(address.canonical().as_str(), "2001:db8::1:0:0:1");
    /// # Ok(())
    /// # });
    /// ```
    #[inline(always)]
    pub fn canonical(&self) -> ArrayString<ADDRESS_TEXT_CAPACITY> {
        canonical_text(&self.segments())
    }

    /// Creates the address with these halves.
    #[inline(always)]
    fn from_halves(high: u64, low: u64) -> Self {
        Ipv6Addr {
            low_first: segments::low_first_of(high, low),
        }
    }

    /// Compares the address with another: first the high halves, then the low ones.
    #[inline]
    pub(crate) fn order(&self, other: &Ipv6Addr) -> Ordering {
        let (high, low) = segments::halves(&self.low_first);
        let (other_high, other_low) = segments::halves(&other.low_first);
        if high != other_high {
            return high.cmp(&other_high);
        }
        low.cmp(&other_low)
    }

    /// Returns the sixteen octets, lowest first.
    #[inline]
    pub(crate) fn octets_low_first(&self) -> [u8; 16] {
        segments::octets_low_first(&self.segments())
    }
}

/// Returns the high half of a number and the low one.
// Not inlined, so that the compiler knows nothing about the two halves and stores each at once. If
// it sees how they are computed, it extracts and stores each segment separately.
#[inline(never)]
fn halves_of(number: u128) -> (u64, u64) {
    segments::halves_of_number(number)
}

impl From<u128> for Ipv6Addr {
    /// Creates the address with this number.
    #[inline]
    fn from(number: u128) -> Self {
        let (high, low) = halves_of(number);
        Ipv6Addr::from_halves(high, low)
    }
}

impl From<[u16; 8]> for Ipv6Addr {
    /// Creates the address with these groups, highest first.
    #[inline]
    fn from(segments: [u16; 8]) -> Self {
        Ipv6Addr {
            low_first: segments::reversed(&segments),
        }
    }
}

impl From<Ipv6Addr> for u128 {
    /// Returns the number of the address.
    #[inline]
    fn from(address: Ipv6Addr) -> Self {
        let (high, low) = segments::halves(&address.low_first);
        segments::number_of_halves(high, low)
    }
}

impl FromStr for Ipv6Addr {
    type Err = AddrParseError;

    /// The same as `read_bytes`.
    #[inline]
    fn from_str(text: &str) -> Result<Self, AddrParseError> {
        Ipv6Addr::read_bytes(text.as_bytes())
    }
}

impl fmt::Display for Ipv6Addr {
    #[inline]
    fn fmt(&self, f: &mut fmt::Formatter<'_>) -> fmt::Result {
        f.write_str(self.canonical().as_str())
    }
}
