// Written by scripts/plain out of crates/ipnetwork_addr/src/ipv4.rt

//! IPv4 addresses.

use crate::ipnetwork_addr::decimal::push_decimal;
use crate::ipnetwork_addr::octet::read_octets;
use crate::ipnetwork_addr::{ADDRESS_TEXT_CAPACITY, AddrParseError};
use crate::plain_std::arrayvec::ArrayString;
use core::fmt;
use core::str::FromStr;

/// An IPv4 address of 32 bits, ordered by its number.
///
/// ```
/// # use fosibegan_core::in_examples::*;
/// # ended(|| {
/// let address: Ipv4Addr = "192.0.2.1".parse()?;
/// assert_eq!(u32::from(address), 3_221_225_985);
/// # Ok(())
/// # });
/// ```
#[derive(Clone, Copy, Debug, PartialEq, Eq, PartialOrd, Ord, Hash)]
pub struct Ipv4Addr {
    number: u32,
}

impl Ipv4Addr {
    /// Creates the address `a.b.c.d`.
    ///
    /// ```
    /// # use fosibegan_core::in_examples::*;
    /// let address = Ipv4Addr::new(192, 0, 2, 1);
    /// assert_eq!(address, Ipv4Addr::from(0xc000_0201));
    /// ```
    #[inline]
    pub fn new(a: u8, b: u8, c: u8, d: u8) -> Self {
        Ipv4Addr {
            number: u32::from_be_bytes([a, b, c, d]),
        }
    }

    /// Returns the four octets, highest first.
    ///
    /// ```
    /// # use fosibegan_core::in_examples::*;
    /// assert_eq!(Ipv4Addr::from(0xc000_0201).octets(), [192, 0, 2, 1]);
    /// ```
    #[inline]
    pub fn octets(&self) -> [u8; 4] {
        self.number.to_be_bytes()
    }

    /// Reads the address that a text names: four decimal octets joined by `.`, each at most 255 and
    /// without a leading zero. Nothing may come before or after. For any other text the error is
    /// `AddrParseError::Ipv4`.
    ///
    /// ```
    /// # use fosibegan_core::in_examples::*;
    /// assert_eq!(Ipv4Addr::read_bytes(b"192.0.2.1"), Ok(Ipv4Addr::new(192, 0, 2, 1)));
    /// assert_eq!(Ipv4Addr::read_bytes(b"192.0.2.256"), Err(AddrParseError::Ipv4));
    /// ```
    #[inline]
    pub fn read_bytes(text: &[u8]) -> Result<Self, AddrParseError> {
        match read_octets(text) {
            Some(octets) => Ok(Ipv4Addr::from(octets)),
            None => Err(AddrParseError::Ipv4),
        }
    }

    /// Returns the canonical text, at most 15 bytes: four shortest decimals joined by `.`.
    ///
    /// ```
    /// # use fosibegan_core::in_examples::*;
    /// let address = Ipv4Addr::new(192, 0, 2, 1);
    /// assert_eq!(address.canonical().as_str(), "192.0.2.1");
    /// ```
    #[inline]
    pub fn canonical(&self) -> ArrayString<ADDRESS_TEXT_CAPACITY> {
        let [a, b, c, d] = self.octets();
        let mut text = ArrayString::new();
        push_decimal(&mut text, a);
        text.push('.');
        push_decimal(&mut text, b);
        text.push('.');
        push_decimal(&mut text, c);
        text.push('.');
        push_decimal(&mut text, d);
        text
    }
}

impl From<u32> for Ipv4Addr {
    /// Creates the address with this number.
    #[inline]
    fn from(number: u32) -> Self {
        Ipv4Addr { number }
    }
}

impl From<[u8; 4]> for Ipv4Addr {
    /// Creates the address with these octets, highest first.
    #[inline]
    fn from(octets: [u8; 4]) -> Self {
        let [a, b, c, d] = octets;
        Ipv4Addr::new(a, b, c, d)
    }
}

impl From<Ipv4Addr> for u32 {
    /// Returns the number of the address.
    #[inline]
    fn from(address: Ipv4Addr) -> Self {
        address.number
    }
}

impl FromStr for Ipv4Addr {
    type Err = AddrParseError;

    /// The same as `read_bytes`.
    #[inline]
    fn from_str(text: &str) -> Result<Self, AddrParseError> {
        Ipv4Addr::read_bytes(text.as_bytes())
    }
}

impl fmt::Display for Ipv4Addr {
    #[inline]
    fn fmt(&self, f: &mut fmt::Formatter<'_>) -> fmt::Result {
        f.write_str(self.canonical().as_str())
    }
}
