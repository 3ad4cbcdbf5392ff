//! What C lends: a pointer and a length.

/// So many items at this place. The pointer may be null beside the length 0.
///
/// # Safety
///
/// Otherwise so many items lie there, and nothing writes them meanwhile.
#[inline(always)]
pub(crate) unsafe fn lent<'a, T>(at: *const T, length: usize) -> &'a [T] {
    if length == 0 {
        return &[];
    }
    // SAFETY: as the caller says.
    unsafe { core::slice::from_raw_parts(at, length) }
}

/// The same, to be written.
///
/// # Safety
///
/// So many items lie there unless the length is 0, and nothing else reads or writes them meanwhile.
#[inline(always)]
pub(crate) unsafe fn lent_mut<'a, T>(at: *mut T, length: usize) -> &'a mut [T] {
    if length == 0 {
        return &mut [];
    }
    // SAFETY: as the caller says.
    unsafe { core::slice::from_raw_parts_mut(at, length) }
}
