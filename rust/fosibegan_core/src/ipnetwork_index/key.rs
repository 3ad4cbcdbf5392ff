// Written by scripts/plain out of crates/ipnetwork_index/src/key.rt

//! Plain numbers to search for.

/// A plain number that is searched for among others: `u32`, `u64` or `u128`. No call allocates.
///
/// ```
/// # use fosibegan_core::in_examples::*;
/// assert!(1u32.is_less(2));
/// ```
#[allow(private_bounds)]
pub trait Key: Copy + InnerKey {
    /// Whether this number is less than `other`.
    ///
    /// ```
    /// # use fosibegan_core::in_examples::*;
    /// assert!(!2u64.is_less(2));
    /// ```
    fn is_less(self, other: Self) -> bool;

    /// The size of parts, as a power of two, if about 2^`bits` of them extend from `base` to this
    /// number. The contract leaves the size open: another would cost time but change no result.
    ///
    /// ```
    /// # use fosibegan_core::in_examples::*;
    /// assert_eq!(259u32.part_size(3, 4), 5);
    /// ```
    fn part_size(self, base: Self, bits: u32) -> u32;
}

/// What `Key` has for the library alone: nothing checks what it needs.
pub(crate) trait InnerKey: Copy {
    /// The part in which this number lies, if the parts begin at `base` and have 2^`shift` numbers
    /// each: the first for the numbers before `base`, and the part `last` for those after it.
    /// `shift` must be less than the number of bits.
    fn part_of(self, base: Self, shift: u32, last: usize) -> usize;
}

impl Key for u32 {
    #[inline]
    fn is_less(self, other: u32) -> bool {
        self < other
    }

    fn part_size(self, base: u32, bits: u32) -> u32 {
        let width = 32 - self.saturating_sub(base).leading_zeros();
        width.saturating_sub(bits).min(31)
    }
}

impl InnerKey for u32 {
    #[inline]
    fn part_of(self, base: u32, shift: u32, last: usize) -> usize {
        let part = usize::try_from(self.saturating_sub(base) >> shift).unwrap_or(usize::MAX);
        part.min(last)
    }
}

impl Key for u64 {
    #[inline]
    fn is_less(self, other: u64) -> bool {
        self < other
    }

    fn part_size(self, base: u64, bits: u32) -> u32 {
        let width = 64 - self.saturating_sub(base).leading_zeros();
        width.saturating_sub(bits).min(63)
    }
}

impl InnerKey for u64 {
    #[inline]
    fn part_of(self, base: u64, shift: u32, last: usize) -> usize {
        let part = usize::try_from(self.saturating_sub(base) >> shift).unwrap_or(usize::MAX);
        part.min(last)
    }
}

impl Key for u128 {
    #[inline]
    fn is_less(self, other: u128) -> bool {
        self < other
    }

    fn part_size(self, base: u128, bits: u32) -> u32 {
        let width = 128 - self.saturating_sub(base).leading_zeros();
        width.saturating_sub(bits).min(127)
    }
}

impl InnerKey for u128 {
    #[inline]
    fn part_of(self, base: u128, shift: u32, last: usize) -> usize {
        let part = self.saturating_sub(base) >> shift;
        part.min(last as u128) as usize
    }
}
