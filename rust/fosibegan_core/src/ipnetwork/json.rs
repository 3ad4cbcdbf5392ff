// Written by scripts/plain out of crates/ipnetwork/src/json.rt

//! Converts networks of either family to and from JSON values (RFC 8259): a network is the string
//! of its canonical text.

use crate::plain_std::serde_json::OfKit;
use crate::ipnetwork::IpNetwork;
#[cfg(feature = "serde")]
use crate::ipnetwork_family::JsonFault;
use crate::plain_std::serde_json::Value;
use crate::plain_std::alloc::{AllocError, Global};

impl IpNetwork {
    /// Returns the canonical text as a string value. Allocates once; returns `AllocError` if out of
    /// memory.
    ///
    /// ```
    /// # use fosibegan_core::in_examples::*;
    /// # ended(|| {
    /// let network: IpNetwork = "10.1.9.32/8".parse()?;
    /// let text = network.to_value(Global)?.kit_to_string(Global)?;
    /// assert_eq!(text.as_str(), "\"10.1.9.32/8\"");
    /// # Ok(())
    /// # });
    /// ```
    pub fn to_value(&self, alloc: Global) -> Result<Value, AllocError> {
        Value::try_from_str(alloc, self.canonical().as_str())
    }

    /// Reads the network of either family that a string value names, as `parse` does. If `parse`
    /// returns an error, this returns `Refused` with it; for a value that is not a string it
    /// returns `NotAString`. Allocates at most once, only for an error that carries a text; if that
    /// allocation fails, the error is `Refused(IpNetworkError::OutOfMemory)`.
    ///
    /// ```
    /// # use fosibegan_core::in_examples::*;
    /// # ended(|| {
    /// let value = fosibegan_core::plain_std::serde_json::Value::try_from_str(Global, "10.1.9.32/8")?;
    /// let network = IpNetwork::from_value(Global, &value)?;
    /// assert_eq!(network.prefix(), 8);
    /// # Ok(())
    /// # });
    /// ```
    pub fn from_value(alloc: Global, value: &Value) -> Result<Self, JsonFault> {
        match value.as_str() {
            Some(text) => match IpNetwork::parse(alloc, text) {
                Ok(network) => Ok(network),
                Err(error) => Err(JsonFault::Refused(error)),
            },
            None => Err(JsonFault::NotAString),
        }
    }
}
