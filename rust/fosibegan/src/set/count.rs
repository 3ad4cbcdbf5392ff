//! The number of addresses of a set.

use alloc::format;
use core::cmp::Ordering;
use core::fmt;
use core::num::TryFromIntError;
use fosibegan_core::AddressCount as CoreCount;

/// The decimal digits of 2^128: the last 18, and those before.
const UPPER: u128 = 340_282_366_920_938_463_463;
const LOWER: u128 = 374_607_431_768_211_456;

/// A number of addresses: what [`AddressSet::address_count`](crate::AddressSet::address_count)
/// returns. It is always exact.
///
/// IPv6 has 2<sup>128</sup> addresses, one more than the greatest `u128`, and IPv4 has
/// 2<sup>32</sup> others. So a count is a type of its own: it is compared with numbers that are on
/// the right, printed in decimal, and converted by `try_from` where it fits.
///
/// # Examples
///
/// ```
/// use fosibegan::{AddressCount, AddressSet, Ipv6Network};
///
/// let set: AddressSet<Ipv6Network> = ["2001:db8::/64".parse::<Ipv6Network>()?].into();
/// let count: AddressCount = set.address_count();
/// assert!(count > 1_000_000);
/// assert_eq!(count, 1 << 64);
/// assert_eq!(u128::try_from(count)?, 1 << 64);
/// assert!(u64::try_from(count).is_err());
/// assert_eq!(count.to_string(), "18446744073709551616");
/// # Ok::<(), Box<dyn std::error::Error>>(())
/// ```
#[derive(Clone, Copy, Default, PartialEq, Eq, Hash, PartialOrd, Ord)]
pub struct AddressCount {
    /// Whether 2^128 is added to the rest.
    is_past_128_bits: bool,
    rest: u128,
}

impl AddressCount {
    /// The sum of the counts of both families.
    pub(super) fn of_parts(v4: CoreCount, v6: CoreCount) -> Self {
        let (v4, v6) = (Self::of_core(v4), Self::of_core(v6));
        let (rest, is_past) = v4.rest.overflowing_add(v6.rest);
        Self {
            is_past_128_bits: v4.is_past_128_bits | v6.is_past_128_bits | is_past,
            rest,
        }
    }

    fn of_core(count: CoreCount) -> Self {
        match count {
            CoreCount::Number(rest) => Self::from(rest),
            CoreCount::AllOfIpv6 => Self {
                is_past_128_bits: true,
                rest: 0,
            },
        }
    }
}

impl From<u128> for AddressCount {
    fn from(number: u128) -> Self {
        Self {
            is_past_128_bits: false,
            rest: number,
        }
    }
}

// Not the other way round: in a program that has this crate somewhere below it, `number == text.parse()?`
// and `number < other.into()` would then no longer say which type is meant.
impl PartialEq<u128> for AddressCount {
    fn eq(&self, number: &u128) -> bool {
        *self == Self::from(*number)
    }
}

impl PartialOrd<u128> for AddressCount {
    fn partial_cmp(&self, number: &u128) -> Option<Ordering> {
        Some(self.cmp(&Self::from(*number)))
    }
}

impl TryFrom<AddressCount> for u128 {
    type Error = TryFromIntError;

    /// Returns the number. Fails if it is 2<sup>128</sup> or more.
    fn try_from(count: AddressCount) -> Result<u128, TryFromIntError> {
        if count.is_past_128_bits {
            // The error of a number that does not fit, which only a conversion makes.
            return Err(u8::try_from(u16::MAX).unwrap_err());
        }
        Ok(count.rest)
    }
}

/// The conversions to the types of fewer bits.
macro_rules! smaller {
    ($($number:ident),*) => {$(
        impl TryFrom<AddressCount> for $number {
            type Error = TryFromIntError;

            /// Returns the number if it fits.
            fn try_from(count: AddressCount) -> Result<$number, TryFromIntError> {
                $number::try_from(u128::try_from(count)?)
            }
        }
    )*};
}

smaller!(u32, u64, usize);

impl fmt::Display for AddressCount {
    /// Writes the number in decimal, and respects width, fill and alignment.
    fn fmt(&self, f: &mut fmt::Formatter<'_>) -> fmt::Result {
        if !self.is_past_128_bits {
            return fmt::Display::fmt(&self.rest, f);
        }
        // No set has more than the addresses of IPv4 and those of IPv6: there is no carry.
        f.pad_integral(true, "", &format!("{UPPER}{}", LOWER + self.rest))
    }
}

impl fmt::Debug for AddressCount {
    fn fmt(&self, f: &mut fmt::Formatter<'_>) -> fmt::Result {
        write!(f, "AddressCount({self})")
    }
}
