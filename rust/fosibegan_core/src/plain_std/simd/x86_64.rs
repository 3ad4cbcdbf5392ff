//! Sixteen bytes by instructions of x86-64: of SSE2, which every target that has this module asks for, and of SSSE3
//! where the processor has it.

// Calls of SSE2 are safe since Rust 1.86.
#![allow(unused_unsafe)]

use core::arch::x86_64::*;
use core::mem::transmute;
use core::sync::atomic::{AtomicU8, Ordering};

/// Sixteen lanes of a byte.
#[derive(Clone, Copy)]
pub struct Sixteen(__m128i);

/// What instructions of SSE2 make of vectors.
macro_rules! sse2 {
    ($made:expr) => {
        // SAFETY: this module is compiled for targets with SSE2 alone, and no call in it needs more.
        unsafe { $made }
    };
}

impl Sixteen {
    #[inline(always)]
    pub fn of(lanes: [u8; 16]) -> Self {
        // SAFETY: both have sixteen bytes, and any bytes are a vector.
        Sixteen(unsafe { transmute::<[u8; 16], __m128i>(lanes) })
    }

    #[inline(always)]
    pub fn lanes(self) -> [u8; 16] {
        // SAFETY: both have sixteen bytes, and any bytes are an array of them.
        unsafe { transmute::<__m128i, [u8; 16]>(self.0) }
    }

    /// 255 where both lanes are equal, and else 0.
    #[inline(always)]
    pub fn equal(self, other: Self) -> Self {
        Sixteen(sse2!(_mm_cmpeq_epi8(self.0, other.0)))
    }

    /// 255 where the lane is less, and else 0.
    #[inline(always)]
    pub fn less(self, other: Self) -> Self {
        // There is no comparison of lanes without a sign: the greater one is this one where it is not less.
        let at_least = Sixteen(sse2!(_mm_max_epu8(self.0, other.0))).equal(self);
        at_least.and_not(Sixteen(sse2!(_mm_set1_epi8(-1))))
    }

    /// The sums, which wrap.
    #[inline(always)]
    pub fn plus(self, other: Self) -> Self {
        Sixteen(sse2!(_mm_add_epi8(self.0, other.0)))
    }

    /// The differences, which wrap.
    #[inline(always)]
    pub fn minus(self, other: Self) -> Self {
        Sixteen(sse2!(_mm_sub_epi8(self.0, other.0)))
    }

    #[inline(always)]
    pub fn and(self, other: Self) -> Self {
        Sixteen(sse2!(_mm_and_si128(self.0, other.0)))
    }

    /// The bits of the other one that this one has not.
    #[inline(always)]
    pub fn and_not(self, other: Self) -> Self {
        Sixteen(sse2!(_mm_andnot_si128(self.0, other.0)))
    }

    #[inline(always)]
    pub fn or(self, other: Self) -> Self {
        Sixteen(sse2!(_mm_or_si128(self.0, other.0)))
    }

    /// The lane at each of these places, and 0 where there is none.
    #[inline(always)]
    pub fn moved(self, places: Self) -> Self {
        if is_known_to_have_ssse3() {
            // SAFETY: the processor has SSSE3.
            unsafe { self.shuffled(places) }
        } else {
            self.moved_otherwise(places)
        }
    }

    /// `moved`, where it is not known that the processor has SSSE3.
    #[cold]
    #[inline(never)]
    fn moved_otherwise(self, places: Self) -> Self {
        if has_ssse3() {
            // SAFETY: the processor has SSSE3.
            unsafe { self.shuffled(places) }
        } else {
            Sixteen::of(super::moved_by_lanes(self.lanes(), places.lanes()))
        }
    }

    /// `moved`, by an instruction.
    ///
    /// # Safety
    ///
    /// The processor has to have SSSE3.
    #[inline(always)]
    unsafe fn shuffled(self, places: Self) -> Self {
        // A place of 16 and more gets its highest bit set, for which `pshufb` gives 0.
        let marked = sse2!(_mm_adds_epu8(places.0, _mm_set1_epi8(0x70)));
        #[cfg(target_feature = "ssse3")]
        {
            // SAFETY: the target asks for SSSE3.
            Sixteen(unsafe { _mm_shuffle_epi8(self.0, marked) })
        }
        #[cfg(not(target_feature = "ssse3"))]
        {
            // What has the attribute `target_feature` is never inlined here, and the call costs more than
            // all that the instruction saves.
            let mut lanes = self.0;
            // SAFETY: the processor has the instruction, which reads and writes these registers alone.
            unsafe {
                core::arch::asm!(
                    "pshufb {lanes}, {marked}",
                    lanes = inout(xmm_reg) lanes,
                    marked = in(xmm_reg) marked,
                    options(pure, nomem, nostack, preserves_flags),
                );
            }
            Sixteen(lanes)
        }
    }

    /// The sum of the products of each four lanes.
    #[inline(always)]
    pub fn dot4(self, other: Self) -> [u32; 4] {
        sse2!({
            let zero = _mm_setzero_si128();
            // A byte fits 16 bits with a sign, so these sums of two products are exact.
            let low = _mm_madd_epi16(
                _mm_unpacklo_epi8(self.0, zero),
                _mm_unpacklo_epi8(other.0, zero),
            );
            let high = _mm_madd_epi16(
                _mm_unpackhi_epi8(self.0, zero),
                _mm_unpackhi_epi8(other.0, zero),
            );
            let (low, high) = (_mm_castsi128_ps(low), _mm_castsi128_ps(high));
            let even = _mm_castps_si128(_mm_shuffle_ps::<0b10_00_10_00>(low, high));
            let odd = _mm_castps_si128(_mm_shuffle_ps::<0b11_01_11_01>(low, high));
            // Both have sixteen bytes, and any bytes are numbers.
            transmute::<__m128i, [u32; 4]>(_mm_add_epi32(even, odd))
        })
    }

    /// The highest bit of each lane, that of the first one lowest.
    #[inline(always)]
    pub fn highest_bits(self) -> u16 {
        sse2!(_mm_movemask_epi8(self.0)) as u16
    }
}

/// Four lanes, as a vector.
#[inline(always)]
fn vector(lanes: [u32; 4]) -> __m128i {
    // SAFETY: both have sixteen bytes, and any bytes are a vector.
    unsafe { transmute::<[u32; 4], __m128i>(lanes) }
}

/// The bytes of four lanes that are at most 255.
#[inline(always)]
fn bytes_of(lanes: __m128i) -> [u8; 4] {
    let pairs = sse2!(_mm_packs_epi32(lanes, lanes));
    (sse2!(_mm_cvtsi128_si32(_mm_packus_epi16(pairs, pairs))) as u32).to_le_bytes()
}

/// 255 where a lane of `a` is greater than that of `b`, and else 0.
#[inline(always)]
pub fn greater(a: [u32; 4], b: [u32; 4]) -> [u8; 4] {
    // The comparison takes the highest bit for a sign: with the other one there the order is the same.
    let signed = |lanes| sse2!(_mm_xor_si128(vector(lanes), _mm_set1_epi32(i32::MIN)));
    let greater = sse2!(_mm_cmpgt_epi32(signed(a), signed(b)));
    let pairs = sse2!(_mm_packs_epi32(greater, greater));
    (sse2!(_mm_cvtsi128_si32(_mm_packs_epi16(pairs, pairs))) as u32).to_le_bytes()
}

/// The lowest byte of each lane.
#[inline(always)]
pub fn low_bytes(lanes: [u32; 4]) -> [u8; 4] {
    bytes_of(sse2!(_mm_and_si128(vector(lanes), _mm_set1_epi32(255))))
}

/// What is known of the processor: nothing at first.
static SSSE3: AtomicU8 = AtomicU8::new(0);

/// The processor has SSSE3.
const YES: u8 = 1;

/// It has not.
const NO: u8 = 2;

/// Whether the target asks for SSSE3, or the processor was asked and has it.
#[inline(always)]
fn is_known_to_have_ssse3() -> bool {
    cfg!(target_feature = "ssse3") || SSSE3.load(Ordering::Relaxed) == YES
}

/// Whether the processor has SSSE3. It is asked once.
fn has_ssse3() -> bool {
    if is_known_to_have_ssse3() {
        return true;
    }
    // In an enclave of SGX the question is a fault.
    if cfg!(target_env = "sgx") || SSSE3.load(Ordering::Relaxed) == NO {
        return false;
    }
    let has = sse2!(__cpuid(1)).ecx & 1 << 9 != 0;
    SSSE3.store(if has { YES } else { NO }, Ordering::Relaxed);
    has
}

#[cfg(test)]
mod tests {
    use super::*;

    #[test]
    fn with_the_instruction_and_without() {
        let lanes = core::array::from_fn(|lane| lane as u8 + 100);
        for place in 0..=255 {
            let places = core::array::from_fn(|lane| place ^ lane as u8);
            let moved = || Sixteen::of(lanes).moved(Sixteen::of(places)).lanes();
            let by_lanes = super::super::moved_by_lanes(lanes, places);
            // What is said here of the processor is less than what is so, and other tests may take it.
            for known in [NO, 0, NO] {
                SSSE3.store(known, Ordering::Relaxed);
                assert_eq!(moved(), by_lanes, "{places:?}");
            }
            SSSE3.store(0, Ordering::Relaxed);
            if has_ssse3() {
                assert!(is_known_to_have_ssse3());
                assert_eq!(moved(), by_lanes, "{places:?}");
            }
        }
    }
}
