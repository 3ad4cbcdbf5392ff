// Written by scripts/plain out of crates/ipnetwork_family/src/network.rt

//! Networks of the addresses of one family.

use crate::plain_std::string::String;
use crate::ipnetwork_family::parse::{slash_near_end, split};
use crate::ipnetwork_family::{
    Address, CidrFault, IpNetworkError, NETWORK_TEXT_CAPACITY, NetworkIterator,
};
use crate::plain_std::arrayvec::ArrayString;
use crate::ipnetwork_addr::decimal::push_decimal;
use crate::plain_std::alloc::{AllocError, Global};
use core::fmt;
use core::str::FromStr;

/// An address, host bits included, and a prefix length from 0 to `A::WIDTH`: 32 for IPv4, 128 for
/// IPv6. It represents the set of all addresses whose leading bits, as many as the prefix length,
/// are those of the address. Networks are ordered by address, then by prefix length.
///
/// ```
/// # use fosibegan_core::in_examples::*;
/// # ended(|| {
/// let network: Network<Ipv4Addr> = "192.0.2.77/26".parse()?;
/// assert_eq!(network.network(), Ipv4Addr::new(192, 0, 2, 64));
/// # Ok(())
/// # });
/// ```
#[derive(Copy, Debug, PartialEq, Eq, PartialOrd, Ord, Hash)]
pub struct Network<A: Address> {
    address: A,
    prefix: u8,
}

impl<A: Address> Clone for Network<A> {
    fn clone(&self) -> Self {
        crate::plain_std::made(|| -> Result<Self, AllocError> {
        Ok(*self)
    })
    }
}

// From the clause `network`, a proof in another crate knows that each network is valid: it cannot
// see the private fields. The calls that such proofs begin with have the clause.
impl<A: Address> Network<A> {
    /// The network with this address, host bits kept, and this prefix length; `None` if the prefix
    /// length is greater than `A::WIDTH`.
    ///
    /// ```
    /// # use fosibegan_core::in_examples::*;
    /// let address = Ipv4Addr::new(10, 1, 9, 32);
    /// assert_eq!(Ipv4Network::new_checked(address, 8), "10.1.9.32/8".parse().ok());
    /// assert_eq!(Ipv4Network::new_checked(address, 33), None);
    /// ```
    pub fn new_checked(addr: A, prefix: u8) -> Option<Self> {
        if prefix > A::WIDTH {
            return None;
        }
        addr.law_of_width();
        Some(Network {
            address: addr,
            prefix,
        })
    }

    /// The network without host bits that has this prefix length and holds the address; `None` if
    /// the prefix length is greater than `A::WIDTH`.
    ///
    /// ```
    /// # use fosibegan_core::in_examples::*;
    /// let block = Ipv4Network::block(Ipv4Addr::new(10, 1, 9, 32), 8);
    /// assert_eq!(block, "10.0.0.0/8".parse().ok());
    /// ```
    pub fn block(addr: A, prefix: u8) -> Option<Self> {
        addr.law_of_width();
        let network = Network::new_checked(addr, prefix)?;
        Network::new_checked(network.network(), prefix)
    }

    /// The network with this address, host bits kept, and this prefix length; `InvalidPrefix` if
    /// the prefix length is greater than `A::WIDTH`.
    ///
    /// ```
    /// # use fosibegan_core::in_examples::*;
    /// # ended(|| {
    /// let network = Ipv4Network::new(Ipv4Addr::new(10, 1, 9, 32), 8)?;
    /// assert_eq!(network.canonical().as_str(), "10.1.9.32/8");
    /// # Ok(())
    /// # });
    /// ```
    pub fn new(addr: A, prefix: u8) -> Result<Self, IpNetworkError> {
        match Network::new_checked(addr, prefix) {
            Some(network) => Ok(network),
            None => Err(IpNetworkError::InvalidPrefix),
        }
    }

    /// The network with this address, host bits kept, and the prefix length of this mask;
    /// `InvalidPrefix` if it is not one of the `A::WIDTH` + 1 masks.
    ///
    /// ```
    /// # use fosibegan_core::in_examples::*;
    /// # ended(|| {
    /// let mask = Ipv4Addr::new(255, 255, 240, 0);
    /// let network = Ipv4Network::with_netmask(Ipv4Addr::new(10, 1, 9, 32), mask)?;
    /// assert_eq!(network.prefix(), 20);
    /// # Ok(())
    /// # });
    /// ```
    pub fn with_netmask(netaddr: A, netmask: A) -> Result<Self, IpNetworkError> {
        match netmask.prefix_of_mask() {
            Some(prefix) => Network::new(netaddr, prefix),
            None => Err(IpNetworkError::InvalidPrefix),
        }
    }

    /// The address as given, host bits included.
    ///
    /// ```
    /// # use fosibegan_core::in_examples::*;
    /// # ended(|| {
    /// let network: Ipv4Network = "192.0.2.77/26".parse()?;
    /// assert_eq!(network.ip(), Ipv4Addr::new(192, 0, 2, 77));
    /// # Ok(())
    /// # });
    /// ```
    pub fn ip(&self) -> A {
        self.address
    }

    /// The prefix length, in bits.
    ///
    /// ```
    /// # use fosibegan_core::in_examples::*;
    /// # ended(|| {
    /// let network: Ipv4Network = "192.0.2.77/26".parse()?;
    /// assert_eq!(network.prefix(), 26);
    /// # Ok(())
    /// # });
    /// ```
    pub fn prefix(&self) -> u8 {
        self.prefix
    }

    /// The mask: as many leading ones as the prefix length, followed by zeros.
    ///
    /// ```
    /// # use fosibegan_core::in_examples::*;
    /// # ended(|| {
    /// let network: Ipv4Network = "192.0.2.77/26".parse()?;
    /// assert_eq!(network.mask(), Ipv4Addr::new(255, 255, 255, 192));
    /// # Ok(())
    /// # });
    /// ```
    pub fn mask(&self) -> A {
        A::mask(self.prefix)
    }

    /// The least member: the address with its host bits cleared.
    ///
    /// ```
    /// # use fosibegan_core::in_examples::*;
    /// # ended(|| {
    /// let network: Ipv4Network = "192.0.2.77/26".parse()?;
    /// assert_eq!(network.network(), Ipv4Addr::new(192, 0, 2, 64));
    /// # Ok(())
    /// # });
    /// ```
    pub fn network(&self) -> A {
        self.ip().least(self.prefix())
    }

    /// The greatest member: the address with its host bits set.
    ///
    /// ```
    /// # use fosibegan_core::in_examples::*;
    /// # ended(|| {
    /// let network: Ipv4Network = "192.0.2.77/26".parse()?;
    /// assert_eq!(network.broadcast(), Ipv4Addr::new(192, 0, 2, 127));
    /// # Ok(())
    /// # });
    /// ```
    pub fn broadcast(&self) -> A {
        self.ip().greatest(self.prefix())
    }

    /// Whether an address is in the network's set.
    ///
    /// ```
    /// # use fosibegan_core::in_examples::*;
    /// # ended(|| {
    /// let network: Ipv4Network = "192.0.2.77/26".parse()?;
    /// assert!(network.contains(Ipv4Addr::new(192, 0, 2, 127)));
    /// assert!(!network.contains(Ipv4Addr::new(192, 0, 2, 128)));
    /// # Ok(())
    /// # });
    /// ```
    pub fn contains(&self, ip: A) -> bool {
        ip.law_of_width();
        ip.agrees(self.address, self.prefix)
    }

    /// Whether each member of this network is a member of `other`. Host bits are ignored.
    ///
    /// ```
    /// # use fosibegan_core::in_examples::*;
    /// # ended(|| {
    /// let network: Ipv4Network = "192.0.2.77/26".parse()?;
    /// assert!(network.is_subnet_of("192.0.2.0/24".parse()?));
    /// # Ok(())
    /// # });
    /// ```
    pub fn is_subnet_of(self, other: Network<A>) -> bool {
        other.prefix() <= self.prefix() && other.contains(self.ip())
    }

    /// Whether each member of `other` is a member of this network. Host bits are ignored.
    ///
    /// ```
    /// # use fosibegan_core::in_examples::*;
    /// # ended(|| {
    /// let network: Ipv4Network = "192.0.2.77/26".parse()?;
    /// assert!(network.is_supernet_of("192.0.2.127/32".parse()?));
    /// # Ok(())
    /// # });
    /// ```
    pub fn is_supernet_of(self, other: Network<A>) -> bool {
        other.is_subnet_of(self)
    }

    /// Whether some address is a member of both networks.
    ///
    /// ```
    /// # use fosibegan_core::in_examples::*;
    /// # ended(|| {
    /// let network: Ipv4Network = "192.0.2.77/26".parse()?;
    /// assert!(network.overlaps("192.0.0.0/16".parse()?));
    /// assert!(!network.overlaps("192.0.2.0/26".parse()?));
    /// # Ok(())
    /// # });
    /// ```
    pub fn overlaps(self, other: Network<A>) -> bool {
        self.contains(other.ip()) || other.contains(self.ip())
    }

    /// The members, each once, in ascending order.
    ///
    /// ```
    /// # use fosibegan_core::in_examples::*;
    /// # ended(|| {
    /// let network: Ipv4Network = "192.0.2.77/31".parse()?;
    /// let mut members = network.iter();
    /// assert_eq!(members.next(), Some(Ipv4Addr::new(192, 0, 2, 76)));
    /// # Ok(())
    /// # });
    /// ```
    pub fn iter(&self) -> NetworkIterator<A> {
        NetworkIterator::between(self.network(), self.broadcast())
    }

    /// The network that a text names: an address of the family, host bits kept, optionally followed
    /// by `/` and a suffix. The suffix is a prefix length of at most `A::WIDTH` or, for IPv4 only,
    /// one of the 33 masks as an IPv4 address; without a `/` the prefix length is `A::WIDTH`. Any
    /// other text is refused with its cause.
    ///
    /// ```
    /// # use fosibegan_core::in_examples::*;
    /// # ended(|| {
    /// let network = Ipv4Network::read_bytes(b"10.1.9.32/255.0.0.0")?;
    /// assert_eq!(network.prefix(), 8);
    /// assert_eq!(Ipv4Network::read_bytes(b"10.1.9.32/33"), Err(CidrFault::Prefix));
    /// # Ok(())
    /// # });
    /// ```
    #[inline(always)]
    pub fn read_bytes(text: &[u8]) -> Result<Self, CidrFault> {
        match read_suffixed::<A>(text) {
            Some(network) => Ok(network),
            None => read_parts(text),
        }
    }

    /// The network that a text names, as `read_bytes` reads it. If it names none, the error is the
    /// one that `IpNetworkError::from_fault` returns for the cause, the family's address error
    /// (`AddrParseError::Ipv4` or `Ipv6`) and the text. Allocates at most once, for an error that
    /// carries a text, and returns `OutOfMemory` only in place of such an error.
    ///
    /// ```
    /// # use fosibegan_core::in_examples::*;
    /// # ended(|| {
    /// let network = Ipv6Network::parse(Global, "2001:db8::1/64")?;
    /// assert_eq!(network.prefix(), 64);
    /// # Ok(())
    /// # });
    /// ```
    pub fn parse(alloc: Global, text: &str) -> Result<Self, IpNetworkError> {
        match Network::<A>::read_bytes(text.as_bytes()) {
            Ok(network) => Ok(network),
            Err(fault) => Err(IpNetworkError::from_fault(alloc, fault, A::refusal(), text)),
        }
    }

    /// The canonical text, at most 18 bytes for IPv4 and 43 for IPv6: the canonical address, `/`
    /// and the shortest decimal of the prefix length.
    ///
    /// ```
    /// # use fosibegan_core::in_examples::*;
    /// # ended(|| {
    /// let network: Ipv6Network = "2001:DB8:0:0:1:0:0:1/+064".parse()?;
    /// assert_eq!(network.canonical().as_str(), "2001:db8::1:0:0:1/64");
    /// # Ok(())
    /// # });
    /// ```
    pub fn canonical(&self) -> ArrayString<NETWORK_TEXT_CAPACITY> {
        let mut text = ArrayString::new();
        text.push_text(&self.ip().canonical());
        text.push('/');
        push_decimal(&mut text, self.prefix());
        text
    }

    /// The canonical text as a `String`. Allocates once; `AllocError` when out of memory.
    ///
    /// ```
    /// # use fosibegan_core::in_examples::*;
    /// # ended(|| {
    /// let network: Ipv4Network = "192.0.2.77/26".parse()?;
    /// assert_eq!(network.to_text(Global)?.as_str(), "192.0.2.77/26");
    /// # Ok(())
    /// # });
    /// ```
    pub fn to_text(&self, alloc: Global) -> Result<String, AllocError> {
        String::from_str(alloc, self.canonical().as_str())
    }
}

/// The network that a text names, read from the parts before and after its `/`, or the cause.
#[inline(never)]
fn read_parts<A: Address>(text: &[u8]) -> Result<Network<A>, CidrFault> {
    // Does nothing. The proof needs the law: no address text and no suffix contains a `/`.
    A::law_texts();
    let (address, suffix) = split(text)?;
    let Ok(address) = A::read_bytes(address) else {
        return Err(CidrFault::Addr);
    };
    let Some(prefix) = prefix_length::<A>(suffix) else {
        return Err(CidrFault::Prefix);
    };
    address.law_of_width();
    Ok(Network { address, prefix })
}

/// The network that a text names, if its suffix has one to three bytes. `None` says nothing about
/// the text.
#[inline(always)]
fn read_suffixed<A: Address>(text: &[u8]) -> Option<Network<A>> {
    let at = slash_near_end(text)?;
    let Ok(address) = A::read_bytes(&text[..at]) else {
        return None;
    };
    let prefix = A::read_suffix(&text[at + 1..])?;
    address.law_of_width();
    Some(Network { address, prefix })
}

/// The prefix length that a suffix gives, if any, or `A::WIDTH` if there is no suffix.
fn prefix_length<A: Address>(suffix: Option<&[u8]>) -> Option<u8> {
    match suffix {
        None => Some(A::WIDTH),
        Some(suffix) => A::read_suffix(suffix),
    }
}

/// The prefix length of a mask, or `InvalidPrefix` if the address is not a mask.
pub(crate) fn mask_to_prefix<A: Address>(mask: A) -> Result<u8, IpNetworkError> {
    match mask.prefix_of_mask() {
        Some(prefix) => Ok(prefix),
        None => Err(IpNetworkError::InvalidPrefix),
    }
}

impl<A: Address> From<A> for Network<A> {
    /// The network of prefix length `A::WIDTH` whose only member is this address.
    fn from(addr: A) -> Self {
        addr.law_of_width();
        Network {
            address: addr,
            prefix: A::WIDTH,
        }
    }
}

impl<A: Address> IntoIterator for &Network<A> {
    type Item = A;

    type IntoIter = NetworkIterator<A>;

    /// The same as `iter`.
    fn into_iter(self) -> NetworkIterator<A> {
        self.iter()
    }
}

impl<A: Address> FromStr for Network<A> {
    type Err = CidrFault;

    /// The same as `read_bytes`.
    fn from_str(text: &str) -> Result<Self, CidrFault> {
        Network::<A>::read_bytes(text.as_bytes())
    }
}

impl<A: Address> TryFrom<&str> for Network<A> {
    type Error = CidrFault;

    /// The same as `read_bytes`.
    fn try_from(text: &str) -> Result<Self, CidrFault> {
        Network::<A>::from_str(text)
    }
}

impl<A: Address> fmt::Display for Network<A> {
    fn fmt(&self, f: &mut fmt::Formatter<'_>) -> fmt::Result {
        f.write_str(self.canonical().as_str())
    }
}
