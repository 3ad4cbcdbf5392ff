// Written by scripts/plain out of crates/ipnetwork_sets/src/address_count.rt

//! The number of addresses in a set.

use crate::plain_std::arrayvec::ArrayString;
use crate::ipnetwork_addr::decimal::push_number;
use crate::ipnetwork_blocks::AddressSpace;
use crate::ipnetwork_family::NetworkSizeError;
use core::cmp::Ordering;
use core::fmt;

/// The greatest number of bytes that a count is printed as.
const DECIMAL_MAX: usize = 39;

/// A number of addresses, from 0 to 2^128, which is the number of all IPv6 addresses.
///
/// Counts are compared by their numbers, and printed in decimal.
///
/// ```
/// # use fosibegan_core::in_examples::*;
/// # ended(|| {
/// let all = AddressCount::ZERO.add_block("::/0".parse::<Ipv6Network>()?);
/// let half = AddressCount::ZERO.add_block("8000::/1".parse::<Ipv6Network>()?);
/// assert_eq!((all, half), (AddressCount::AllOfIpv6, AddressCount::Number(1 << 127)));
/// # Ok(())
/// # });
/// ```
#[derive(Clone, Copy, Debug)]
pub enum AddressCount {
    /// A number below 2^128.
    Number(u128),
    /// 2^128.
    AllOfIpv6,
}

impl AddressCount {
    /// No addresses.
    ///
    /// ```
    /// # use fosibegan_core::in_examples::*;
    /// assert_eq!(u128::try_from(AddressCount::ZERO), Ok(0));
    /// ```
    pub const ZERO: AddressCount = AddressCount::Number(0);

    /// The count plus the number of addresses of the network, or 2^128 if the sum is greater. Host
    /// bits are ignored.
    ///
    /// The sum over blocks of one family that share no addresses is exact.
    ///
    /// ```
    /// # use fosibegan_core::in_examples::*;
    /// # ended(|| {
    /// let count = AddressCount::ZERO.add_block("192.0.2.0/24".parse::<Ipv4Network>()?);
    /// assert_eq!(count, AddressCount::from(256));
    /// # Ok(())
    /// # });
    /// ```
    pub fn add_block<N: AddressSpace>(self, network: N) -> AddressCount {
        let host_bits = N::WIDTH - network.prefix();
        let AddressCount::Number(number) = self else {
            return AddressCount::AllOfIpv6;
        };
        if host_bits >= 128 {
            return AddressCount::AllOfIpv6;
        }
        match number.checked_add(1 << host_bits) {
            Some(sum) => AddressCount::Number(sum),
            None => AddressCount::AllOfIpv6,
        }
    }
}

impl From<u128> for AddressCount {
    /// The count with this number.
    fn from(number: u128) -> Self {
        AddressCount::Number(number)
    }
}

impl TryFrom<AddressCount> for u128 {
    type Error = NetworkSizeError;

    /// The number of the count. The error for 2^128, which a `u128` cannot hold, is
    /// `NetworkIsTooLarge`.
    fn try_from(count: AddressCount) -> Result<Self, NetworkSizeError> {
        match count {
            AddressCount::Number(number) => Ok(number),
            AddressCount::AllOfIpv6 => Err(NetworkSizeError::NetworkIsTooLarge),
        }
    }
}

impl PartialEq for AddressCount {
    fn eq(&self, other: &AddressCount) -> bool {
        compare(*self, *other) == Ordering::Equal
    }
}

impl Eq for AddressCount {
}

impl Ord for AddressCount {
    fn cmp(&self, other: &AddressCount) -> Ordering {
        compare(*self, *other)
    }
}

impl PartialOrd for AddressCount {
    fn partial_cmp(&self, other: &AddressCount) -> Option<Ordering> {
        Some(self.cmp(other))
    }
}

// Compares two counts by their numbers.
fn compare(first: AddressCount, second: AddressCount) -> Ordering {
    match first {
        AddressCount::Number(number) => match second {
            AddressCount::Number(other) => number.cmp(&other),
            AddressCount::AllOfIpv6 => Ordering::Less,
        },
        AddressCount::AllOfIpv6 => match second {
            AddressCount::Number(_) => Ordering::Greater,
            AddressCount::AllOfIpv6 => Ordering::Equal,
        },
    }
}

impl fmt::Display for AddressCount {
    fn fmt(&self, f: &mut fmt::Formatter<'_>) -> fmt::Result {
        match self {
            AddressCount::Number(number) => {
                let mut text = ArrayString::<DECIMAL_MAX>::new();
                push_number(&mut text, *number);
                f.write_str(text.as_str())
            }
            AddressCount::AllOfIpv6 => f.write_str("340282366920938463463374607431768211456"),
        }
    }
}
