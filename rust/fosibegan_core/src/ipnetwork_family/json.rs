// Written by scripts/plain out of crates/ipnetwork_family/src/json.rt

//! Networks to and from JSON values (RFC 8259): a network is a string, its canonical text.

use crate::plain_std::serde_json::OfKit;
use crate::ipnetwork_family::{Address, IpNetworkError, Network};
use crate::plain_std::serde_json::Value;
use crate::plain_std::alloc::{AllocError, Global};

/// Why a JSON value is refused as a network.
///
/// ```
/// # use fosibegan_core::in_examples::*;
/// # ended(|| {
/// let value = fosibegan_core::plain_std::serde_json::from_str::<fosibegan_core::plain_std::serde_json::Value>(Global, "8")?;
/// assert_eq!(Ipv4Network::from_value(Global, &value), Err(JsonFault::NotAString));
/// # Ok(())
/// # });
/// ```
#[derive(Debug, PartialEq, Eq)]
pub enum JsonFault {
    /// The value is not a string: null, a Boolean, a number, an array or an object.
    NotAString,
    /// The value is a string, which parsing refuses with this error.
    Refused(IpNetworkError),
}

impl<A: Address> Network<A> {
    /// The canonical text as a string value. Allocates once; `AllocError` when out of memory.
    ///
    /// ```
    /// # use fosibegan_core::in_examples::*;
    /// # ended(|| {
    /// let network: Ipv4Network = "10.1.9.32/8".parse()?;
    /// let text = network.to_value(Global)?.kit_to_string(Global)?;
    /// assert_eq!(text.as_str(), "\"10.1.9.32/8\"");
    /// # Ok(())
    /// # });
    /// ```
    pub fn to_value(&self, alloc: Global) -> Result<Value, AllocError> {
        Value::try_from_str(alloc, self.canonical().as_str())
    }

    /// The network that a string value names, read as by `parse`. A string that `parse` refuses is
    /// `Refused` with its error, and any other value is `NotAString`. Allocates at most once, for
    /// an error that carries a text; without memory for it, the error is
    /// `Refused(IpNetworkError::OutOfMemory)`.
    ///
    /// ```
    /// # use fosibegan_core::in_examples::*;
    /// # ended(|| {
    /// let value = fosibegan_core::plain_std::serde_json::Value::try_from_str(Global, "10.1.9.32/8")?;
    /// let network = Ipv4Network::from_value(Global, &value)?;
    /// assert_eq!(network.prefix(), 8);
    /// # Ok(())
    /// # });
    /// ```
    pub fn from_value(alloc: Global, value: &Value) -> Result<Self, JsonFault> {
        match value.as_str() {
            Some(text) => match Network::<A>::parse(alloc, text) {
                Ok(network) => Ok(network),
                Err(error) => Err(JsonFault::Refused(error)),
            },
            None => Err(JsonFault::NotAString),
        }
    }
}
