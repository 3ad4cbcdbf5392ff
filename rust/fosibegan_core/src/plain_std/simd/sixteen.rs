//! Sixteen bytes, a lane at a time: for processors that have no module of their own.

use core::array;

/// Sixteen lanes of a byte.
#[derive(Clone, Copy)]
pub struct Sixteen([u8; 16]);

impl Sixteen {
    #[inline(always)]
    pub fn of(lanes: [u8; 16]) -> Self {
        Sixteen(lanes)
    }

    #[inline(always)]
    pub fn lanes(self) -> [u8; 16] {
        self.0
    }

    #[inline(always)]
    fn each(self, other: Self, of: impl Fn(u8, u8) -> u8) -> Self {
        Sixteen(array::from_fn(|at| of(self.0[at], other.0[at])))
    }

    /// 255 where both lanes are equal, and else 0.
    #[inline(always)]
    pub fn equal(self, other: Self) -> Self {
        self.each(other, |a, b| if a == b { 255 } else { 0 })
    }

    /// 255 where the lane is less, and else 0.
    #[inline(always)]
    pub fn less(self, other: Self) -> Self {
        self.each(other, |a, b| if a < b { 255 } else { 0 })
    }

    /// The sums, which wrap.
    #[inline(always)]
    pub fn plus(self, other: Self) -> Self {
        self.each(other, u8::wrapping_add)
    }

    /// The differences, which wrap.
    #[inline(always)]
    pub fn minus(self, other: Self) -> Self {
        self.each(other, u8::wrapping_sub)
    }

    #[inline(always)]
    pub fn and(self, other: Self) -> Self {
        self.each(other, |a, b| a & b)
    }

    /// The bits of the other one that this one has not.
    #[inline(always)]
    pub fn and_not(self, other: Self) -> Self {
        self.each(other, |a, b| !a & b)
    }

    #[inline(always)]
    pub fn or(self, other: Self) -> Self {
        self.each(other, |a, b| a | b)
    }

    /// The lane at each of these places, and 0 where there is none.
    #[inline(always)]
    pub fn moved(self, places: Self) -> Self {
        Sixteen(super::moved_by_lanes(self.0, places.0))
    }

    /// The sum of the products of each four lanes.
    #[inline(always)]
    pub fn dot4(self, other: Self) -> [u32; 4] {
        let product = |at: usize| u32::from(self.0[at]) * u32::from(other.0[at]);
        [0, 4, 8, 12].map(|at| product(at) + product(at + 1) + product(at + 2) + product(at + 3))
    }

    /// The highest bit of each lane, that of the first one lowest.
    #[inline(always)]
    pub fn highest_bits(self) -> u16 {
        let [low, high] = [0, 8].map(|at| {
            let eight = array::from_fn(|lane| self.0[at + lane] >> 7);
            // The lowest bit of the byte `i` comes to the bit 56 + i, and no two meet.
            (u64::from_le_bytes(eight).wrapping_mul(0x0102_0408_1020_4080) >> 56) as u16
        });
        low | high << 8
    }
}

/// 255 where a lane of `a` is greater than that of `b`, and else 0.
#[inline(always)]
pub fn greater(a: [u32; 4], b: [u32; 4]) -> [u8; 4] {
    array::from_fn(|at| if a[at] > b[at] { 255 } else { 0 })
}

/// The lowest byte of each lane.
#[inline(always)]
pub fn low_bytes(lanes: [u32; 4]) -> [u8; 4] {
    lanes.map(|lane| lane as u8)
}
