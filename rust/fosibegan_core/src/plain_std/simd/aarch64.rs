//! Sixteen bytes by instructions of aarch64 (NEON), which each target that has this module asks for.

// Calls of NEON are safe since Rust 1.86.
#![allow(unused_unsafe)]

use core::arch::aarch64::*;
use core::mem::transmute;

/// Sixteen lanes of a byte.
#[derive(Clone, Copy)]
pub struct Sixteen(uint8x16_t);

/// What instructions of NEON make of vectors.
macro_rules! neon {
    ($made:expr) => {
        // SAFETY: this module is compiled for targets with NEON alone, and no call in it needs more.
        unsafe { $made }
    };
}

/// The bit that stands for each lane of eight.
const BITS: [u8; 16] = [1, 2, 4, 8, 16, 32, 64, 128, 1, 2, 4, 8, 16, 32, 64, 128];

impl Sixteen {
    #[inline(always)]
    pub fn of(lanes: [u8; 16]) -> Self {
        // SAFETY: both have sixteen bytes, and any bytes are a vector.
        Sixteen(unsafe { transmute::<[u8; 16], uint8x16_t>(lanes) })
    }

    #[inline(always)]
    pub fn lanes(self) -> [u8; 16] {
        // SAFETY: both have sixteen bytes, and any bytes are an array of them.
        unsafe { transmute::<uint8x16_t, [u8; 16]>(self.0) }
    }

    /// 255 where both lanes are equal, and else 0.
    #[inline(always)]
    pub fn equal(self, other: Self) -> Self {
        Sixteen(neon!(vceqq_u8(self.0, other.0)))
    }

    /// 255 where the lane is less, and else 0.
    #[inline(always)]
    pub fn less(self, other: Self) -> Self {
        Sixteen(neon!(vcltq_u8(self.0, other.0)))
    }

    /// The sums, which wrap.
    #[inline(always)]
    pub fn plus(self, other: Self) -> Self {
        Sixteen(neon!(vaddq_u8(self.0, other.0)))
    }

    /// The differences, which wrap.
    #[inline(always)]
    pub fn minus(self, other: Self) -> Self {
        Sixteen(neon!(vsubq_u8(self.0, other.0)))
    }

    #[inline(always)]
    pub fn and(self, other: Self) -> Self {
        Sixteen(neon!(vandq_u8(self.0, other.0)))
    }

    /// The bits of the other one that this one has not.
    #[inline(always)]
    pub fn and_not(self, other: Self) -> Self {
        Sixteen(neon!(vbicq_u8(other.0, self.0)))
    }

    #[inline(always)]
    pub fn or(self, other: Self) -> Self {
        Sixteen(neon!(vorrq_u8(self.0, other.0)))
    }

    /// The lane at each of these places, and 0 where there is none.
    #[inline(always)]
    pub fn moved(self, places: Self) -> Self {
        Sixteen(neon!(vqtbl1q_u8(self.0, places.0)))
    }

    /// The sum of the products of each four lanes.
    #[inline(always)]
    pub fn dot4(self, other: Self) -> [u32; 4] {
        // A product of two bytes fits 16 bits, and what is added is widened first.
        let low = neon!(vmull_u8(vget_low_u8(self.0), vget_low_u8(other.0)));
        let high = neon!(vmull_u8(vget_high_u8(self.0), vget_high_u8(other.0)));
        numbers(neon!(vpaddq_u32(vpaddlq_u16(low), vpaddlq_u16(high))))
    }

    /// The highest bit of each lane, that of the first one lowest.
    #[inline(always)]
    pub fn highest_bits(self) -> u16 {
        let is_set = neon!(vcltzq_s8(vreinterpretq_s8_u8(self.0)));
        let bits = neon!(vandq_u8(is_set, Sixteen::of(BITS).0));
        // No two lanes have a bit in common, so the sums of eight have the bits of all.
        let low = neon!(vaddv_u8(vget_low_u8(bits)));
        let high = neon!(vaddv_u8(vget_high_u8(bits)));
        u16::from_le_bytes([low, high])
    }
}

/// Four lanes, as a vector.
#[inline(always)]
fn vector(lanes: [u32; 4]) -> uint32x4_t {
    // SAFETY: both have sixteen bytes, and any bytes are a vector.
    unsafe { transmute::<[u32; 4], uint32x4_t>(lanes) }
}

/// The four lanes of a vector.
#[inline(always)]
fn numbers(lanes: uint32x4_t) -> [u32; 4] {
    // SAFETY: both have sixteen bytes, and any bytes are numbers.
    unsafe { transmute::<uint32x4_t, [u32; 4]>(lanes) }
}

/// 255 where a lane of `a` is greater than that of `b`, and else 0.
#[inline(always)]
pub fn greater(a: [u32; 4], b: [u32; 4]) -> [u8; 4] {
    low_bytes(numbers(neon!(vcgtq_u32(vector(a), vector(b)))))
}

/// The lowest byte of each lane.
#[inline(always)]
pub fn low_bytes(lanes: [u32; 4]) -> [u8; 4] {
    let pairs = neon!(vmovn_u32(vector(lanes)));
    let bytes = neon!(vreinterpret_u32_u8(vmovn_u16(vcombine_u16(pairs, pairs))));
    neon!(vget_lane_u32::<0>(bytes)).to_le_bytes()
}
