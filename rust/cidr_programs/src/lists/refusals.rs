// Written by scripts/plain out of crates/lists/src/refusals.rt

//! The refused lines of lists.

use fosibegan_core::plain_std::vec::Vec;
use crate::lists::excerpt::Excerpt;
use crate::lists::fault::LineFault;
use fosibegan_core::plain_std::alloc::Global;

/// The most refused lines that are kept.
///
/// ```
/// # use cidr_programs::in_examples::*;
/// # ended(|| {
/// let list = b"x\n".kit_repeat(Global, 103)?;
/// let mut lists = ListReader::new(Global, Rules::lenient(), Refusals::new());
/// read_list(&mut lists, 1, &mut cidr_programs::lines::watched::Watched::new(list.as_slice()))?;
/// let (_, _, refusals) = lists.into_networks();
/// assert_eq!(refusals.kept().len(), REFUSALS_MAX);
/// # Ok(())
/// # });
/// ```
pub const REFUSALS_MAX: usize = 100;

/// A refused line.
///
/// ```
/// # use cidr_programs::in_examples::*;
/// # ended(|| {
/// let mut lists = ListReader::new(Global, Rules::lenient(), Refusals::new());
/// read_list(&mut lists, 7, &mut cidr_programs::lines::watched::Watched::new(b"10.0.0.1\n10.0.0.256".as_slice()))?;
/// let (_, _, refusals) = lists.into_networks();
/// let fault = LineFault::Entry(EntryFault::Address);
/// assert_eq!(refusals.kept()[0], Refusal { list: 7, line: 2, fault });
/// # Ok(())
/// # });
/// ```
#[derive(Clone, Copy, Debug, PartialEq, Eq)]
pub struct Refusal {
    /// The number that the caller gave the list.
    pub list: usize,
    /// The number of the line in its list, counted from 1.
    pub line: u64,
    /// Why the line is refused.
    pub fault: LineFault,
}

/// The first hundred refused lines, in the order in which they were read, and how many more there
/// were.
///
/// ```
/// # use cidr_programs::in_examples::*;
/// # ended(|| {
/// let list = b"x\n".kit_repeat(Global, 103)?;
/// let mut lists = ListReader::new(Global, Rules::lenient(), Refusals::new());
/// read_list(&mut lists, 1, &mut cidr_programs::lines::watched::Watched::new(list.as_slice()))?;
/// let (_, _, refusals) = lists.into_networks();
/// assert_eq!((refusals.kept().len(), refusals.more()), (100, 3));
/// # Ok(())
/// # });
/// ```
#[derive(Debug)]
pub struct Refusals {
    slots: [Refusal; REFUSALS_MAX],
    // The texts of those of them for which there was memory, from the first on. Taken up only when
    // a line is refused, since this value is moved, and the texts would need much of the stack.
    texts: Option<Vec<Excerpt>>,
    count: usize,
    more: u64,
}

// The content of a slot that is not used.
const UNUSED: Refusal = Refusal {
    list: 0,
    line: 0,
    fault: LineFault::Length,
};

impl Refusals {
    /// Creates an empty list of refused lines.
    ///
    /// ```
    /// # use cidr_programs::in_examples::*;
    /// let refusals = Refusals::new();
    /// assert_eq!((refusals.kept().len(), refusals.more()), (0, 0));
    /// ```
    pub fn new() -> Refusals {
        Refusals {
            slots: [UNUSED; REFUSALS_MAX],
            texts: None,
            count: 0,
            more: 0,
        }
    }

    /// Adds a refused line, whose text begins so. If there is no memory for the text, the line is
    /// kept without it, and so are the lines after it.
    pub(crate) fn add(&mut self, alloc: Global, refusal: Refusal, text: Excerpt) {
        if self.count < REFUSALS_MAX {
            self.slots[self.count] = refusal;
            keep_text(alloc, &mut self.texts, self.count, text);
            self.count += 1;
        } else {
            self.more = self.more.saturating_add(1);
        }
    }

    /// Returns the refused lines that are kept: the first hundred.
    ///
    /// ```
    /// # use cidr_programs::in_examples::*;
    /// # ended(|| {
    /// let mut lists = ListReader::new(Global, Rules::lenient(), Refusals::new());
    /// read_list(&mut lists, 1, &mut cidr_programs::lines::watched::Watched::new(b"1.1.1.1/8/8\nx".as_slice()))?;
    /// let (_, _, refusals) = lists.into_networks();
    /// assert_eq!(refusals.kept()[0].fault.text(), "format");
    /// assert_eq!(refusals.kept()[1].fault.text(), "address");
    /// # Ok(())
    /// # });
    /// ```
    pub fn kept(&self) -> &[Refusal] {
        &self.slots[..self.count]
    }

    /// Returns the beginning of the text of the refused line at this index of `kept`, which is
    /// empty if the line was too long or there was no memory for the text. It is for messages, so
    /// no clause says what it is.
    ///
    /// ```
    /// # use cidr_programs::in_examples::*;
    /// # ended(|| {
    /// let mut lists = ListReader::new(Global, Rules::lenient(), Refusals::new());
    /// read_list(&mut lists, 1, &mut cidr_programs::lines::watched::Watched::new(b"10/8 # x".as_slice()))?;
    /// let (_, _, refusals) = lists.into_networks();
    /// assert_eq!(refusals.excerpt(0).bytes(), b"10/8 # x".as_slice());
    /// # Ok(())
    /// # });
    /// ```
    pub fn excerpt(&self, index: usize) -> Excerpt {
        match &self.texts {
            Some(texts) if index < texts.len() => texts[index],
            _ => Excerpt::empty(),
        }
    }

    /// Returns how many more refused lines there were, up to 18,446,744,073,709,551,615.
    ///
    /// ```
    /// # use cidr_programs::in_examples::*;
    /// # ended(|| {
    /// let list = b"x\n".kit_repeat(Global, 103)?;
    /// let mut lists = ListReader::new(Global, Rules::lenient(), Refusals::new());
    /// read_list(&mut lists, 1, &mut cidr_programs::lines::watched::Watched::new(list.as_slice()))?;
    /// let (_, _, refusals) = lists.into_networks();
    /// assert_eq!(refusals.more(), 3);
    /// # Ok(())
    /// # });
    /// ```
    pub fn more(&self) -> u64 {
        self.more
    }

    /// Whether no refused line is kept.
    ///
    /// ```
    /// # use cidr_programs::in_examples::*;
    /// # ended(|| {
    /// let mut lists = ListReader::new(Global, Rules::lenient(), Refusals::new());
    /// read_list(&mut lists, 1, &mut cidr_programs::lines::watched::Watched::new(b"::/129".as_slice()))?;
    /// let (_, _, refusals) = lists.into_networks();
    /// assert!(Refusals::new().is_empty());
    /// assert!(!refusals.is_empty());
    /// # Ok(())
    /// # });
    /// ```
    pub fn is_empty(&self) -> bool {
        self.kept().is_empty()
    }
}

// Adds the beginning of a text to those of the `count` refused lines before it, unless one of them
// is missing or there is no memory.
fn keep_text(alloc: Global, texts: &mut Option<Vec<Excerpt>>, count: usize, text: Excerpt) {
    let kept = texts.get_or_insert_with(|| Vec::new(alloc));
    if kept.len() == count {
        let _ = kept.push(text);
    }
}
