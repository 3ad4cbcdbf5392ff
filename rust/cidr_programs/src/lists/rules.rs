// Written by scripts/plain out of crates/lists/src/rules.rt

//! What lists may say, and how.

use crate::lists::entry::Entry;
use crate::lists::forms::LineForm;
use fosibegan_core::ipnetwork::IpNetwork;

/// What lists may say, and how.
///
/// ```
/// # use cidr_programs::in_examples::*;
/// # ended(|| {
/// let rules = Rules { refuses_host_bits: true, ..Rules::lenient() };
/// let mut lists = ListReader::new(Global, rules, Refusals::new());
/// read_list(&mut lists, 1, &mut cidr_programs::lines::watched::Watched::new(b"10.0.0.5/8".as_slice()))?;
/// let fault = LineFault::Entry(EntryFault::HostBits);
/// assert_eq!(lists.into_networks().2.kept()[0].fault, fault);
/// # Ok(())
/// # });
/// ```
#[derive(Clone, Copy, Debug, PartialEq, Eq)]
pub struct Rules {
    /// Whether networks with host bits are refused: `10.0.0.5/8`.
    pub refuses_host_bits: bool,
    /// Whether a list is refused whose last byte is not a line feed, as it may have been cut. A
    /// list without any byte is such a list. The rule does not hold for texts (`read_text`) and
    /// documents.
    pub is_whole: bool,
    /// Whether an IPv4 address and its mask or wildcard, as two words, are a network:
    /// `10.0.0.0 255.0.0.0`, `10.0.0.0 0.255.255.255`. Strings of documents are not read so.
    pub takes_masks: bool,
    /// The form of the lines. In one of another program no entry has two words, even if masks are
    /// taken. Texts are read by it too, and documents are not.
    pub form: LineForm,
}

impl Rules {
    /// Returns the rules by which no entry is refused for its host bits, no list for its end, no
    /// entry has two words, and lines are in no form of another program.
    ///
    /// ```
    /// # use cidr_programs::in_examples::*;
    /// let rules = Rules::lenient();
    /// assert!(!rules.refuses_host_bits && !rules.is_whole && !rules.takes_masks);
    /// assert_eq!(rules.form, cidr_programs::lists::LineForm::Plain);
    /// ```
    pub fn lenient() -> Rules {
        Rules {
            refuses_host_bits: false,
            is_whole: false,
            takes_masks: false,
            form: LineForm::Plain,
        }
    }

    /// Returns whether an entry is refused for its host bits.
    pub(crate) fn refuses(self, entry: &Entry) -> bool {
        self.refuses_host_bits && has_host_bits(entry)
    }
}

/// Returns whether an entry is a network with host bits.
///
/// ```
/// # use cidr_programs::in_examples::*;
/// # ended(|| {
/// use cidr_programs::lists::{Entry, has_host_bits};
///
/// assert!(has_host_bits(&Entry::Network("10.0.0.5/8".parse()?)));
/// assert!(!has_host_bits(&Entry::Network("10.0.0.0/8".parse()?)));
/// # Ok(())
/// # });
/// ```
pub fn has_host_bits(entry: &Entry) -> bool {
    match entry {
        Entry::Network(IpNetwork::V4(network)) => {
            u32::from(network.ip()) != u32::from(network.network())
        }
        Entry::Network(IpNetwork::V6(network)) => {
            u128::from(network.ip()) != u128::from(network.network())
        }
        Entry::Range { .. } => false,
    }
}
