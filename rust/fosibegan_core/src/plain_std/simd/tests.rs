//! Compares each operation with what it is for on lanes; and the instructions, where there are any, with the loops.

use super::prelude::*;
use super::{Sixteen, ascii, moved_by_lanes};
use core::str;

#[path = "sixteen.rs"]
mod loops;

/// Numbers that look random, the same in each run.
struct Random(u64);

impl Random {
    fn next(&mut self) -> u64 {
        self.0 ^= self.0 << 13;
        self.0 ^= self.0 >> 7;
        self.0 ^= self.0 << 17;
        self.0
    }

    /// A byte; those next to the ends and to the middle of the range are likely.
    fn byte(&mut self) -> u8 {
        let number = self.next();
        match number >> 60 {
            0 => 0,
            1 => 255,
            2 => 127,
            3 => 128,
            4 => 1,
            5 => 254,
            _ => (number >> 32) as u8,
        }
    }

    fn bytes<const N: usize>(&mut self) -> [u8; N] {
        core::array::from_fn(|_| self.byte())
    }

    /// Bytes of which a third are those of `like`.
    fn bytes_like<const N: usize>(&mut self, like: &[u8; N]) -> [u8; N] {
        core::array::from_fn(|lane| {
            if self.next() % 3 == 0 {
                like[lane]
            } else {
                self.byte()
            }
        })
    }
}

fn random() -> Random {
    Random(0x1234_5678_9abc_def1)
}

/// How often each comparison with random lanes is made; an interpreter is slower.
const TIMES: usize = if cfg!(miri) { 20 } else { 5_000 };

fn of_lanes<const N: usize>(a: [u8; N], b: [u8; N], of: fn(u8, u8) -> u8) -> [u8; N] {
    core::array::from_fn(|lane| of(a[lane], b[lane]))
}

/// A bit for each lane of which this is so.
fn bits<T: Copy, const N: usize>(a: [T; N], b: [T; N], is_so: fn(T, T) -> bool) -> u64 {
    (0..N)
        .filter(|lane| is_so(a[*lane], b[*lane]))
        .map(|lane| 1 << lane)
        .sum()
}

fn operations_on<const N: usize>(a: [u8; N], b: [u8; N]) {
    let (x, y) = (Simd::from_array(a), Simd::from_array(b));
    assert_eq!(
        x.simd_eq(y).to_bitmask(),
        bits(a, b, |a, b| a == b),
        "{a:?} == {b:?}"
    );
    assert_eq!(
        x.simd_lt(y).to_bitmask(),
        bits(a, b, |a, b| a < b),
        "{a:?} < {b:?}"
    );
    assert_eq!(
        (x + y).to_array(),
        of_lanes(a, b, u8::wrapping_add),
        "{a:?} + {b:?}"
    );
    assert_eq!(
        (x - y).to_array(),
        of_lanes(a, b, u8::wrapping_sub),
        "{a:?} - {b:?}"
    );
    assert_eq!(
        (x | y).to_array(),
        of_lanes(a, b, |a, b| a | b),
        "{a:?} | {b:?}"
    );
    assert_eq!(
        x.simd_lt(y).select(x, y).to_array(),
        of_lanes(a, b, u8::min),
        "{a:?} {b:?}"
    );
    assert_eq!(
        x.reverse().to_array(),
        core::array::from_fn(|lane| a[N - 1 - lane])
    );
    assert_eq!(Simd::<u8, N>::from_slice(&a), x);
    let mut room = [7; 70];
    y.copy_to_slice(&mut room);
    assert!(room[..N] == b && room[N..].iter().all(|byte| *byte == 7));
}

fn operations_of<const N: usize>() {
    let mut random = random();
    for _ in 0..TIMES {
        let a = random.bytes::<N>();
        let b = random.bytes_like(&a);
        operations_on(a, b);
    }
}

#[test]
fn operations_on_any_number_of_lanes() {
    operations_of::<4>();
    operations_of::<8>();
    operations_of::<16>();
    operations_of::<24>();
    operations_of::<31>();
    operations_of::<32>();
    operations_of::<64>();
}

#[test]
fn operations_on_each_pair_of_bytes() {
    for a in 0..=255 {
        for b in (0..=255).step_by(if cfg!(miri) { 51 } else { 1 }) {
            operations_on([a; 16], [b; 16]);
        }
    }
}

#[test]
fn a_bit_for_each_lane() {
    for bit in 0..64 {
        let mut lanes = [0; 64];
        lanes[bit] = 7;
        let lanes = Simd::<u8, 64>::from_slice(&lanes);
        assert_eq!(lanes.simd_eq(Simd::splat(7)).to_bitmask(), 1 << bit);
        assert_eq!(lanes.simd_lt(Simd::splat(7)).to_bitmask(), !(1 << bit));
    }
    let all = Simd::<u8, 64>::splat(1);
    assert_eq!(all.simd_eq(all).to_bitmask(), u64::MAX);
}

#[test]
#[should_panic = "more lanes"]
fn too_few_values() {
    u8x16::from_slice(&[0; 15]);
}

#[test]
#[should_panic = "more lanes"]
fn too_little_room() {
    u8x16::splat(1).copy_to_slice(&mut [0; 15]);
}

/// What stands at a place, or 0.
fn moved(lanes: [u8; 16], places: [u8; 16]) -> [u8; 16] {
    places.map(|place| lanes.get(usize::from(place)).copied().unwrap_or(0))
}

#[test]
fn each_place_in_each_lane() {
    let lanes = core::array::from_fn(|lane| lane as u8 + 100);
    for place in 0..=255 {
        for lane in 0..16 {
            let mut places = [255; 16];
            places[lane] = place;
            let found = u8x16::from_array(lanes).swizzle_dyn(u8x16::from_array(places));
            assert_eq!(found.to_array(), moved(lanes, places));
            assert_eq!(moved_by_lanes(lanes, places), moved(lanes, places));
        }
    }
}

#[test]
fn random_places() {
    let mut random = random();
    for _ in 0..TIMES {
        let lanes = random.bytes();
        let near = random.bytes::<16>().map(|place| place % 20);
        for places in [near, random.bytes()] {
            let found = u8x16::from_array(lanes).swizzle_dyn(u8x16::from_array(places));
            assert_eq!(
                found.to_array(),
                moved(lanes, places),
                "{lanes:?} at {places:?}"
            );
            assert_eq!(moved_by_lanes(lanes, places), moved(lanes, places));
        }
    }
}

#[test]
fn lanes_of_two_vectors() {
    let a = u8x8::from_array([0, 1, 2, 3, 4, 5, 6, 7]);
    let b = u8x8::from_array([8, 9, 10, 11, 12, 13, 14, 15]);
    let in_turn = [0, 1, 2, 3, 4, 5, 6, 7, 8, 9, 10, 11, 12, 13, 14, 15];
    assert_eq!(
        a.shuffle(b, in_turn).to_array(),
        in_turn.map(|lane| lane as u8)
    );
    let mut random = random();
    for _ in 0..TIMES {
        let places: [usize; 16] = core::array::from_fn(|_| random.next() as usize % 16);
        assert_eq!(
            a.shuffle(b, places).to_array(),
            places.map(|place| place as u8)
        );
    }
    assert_eq!(a.shuffle(b, [15, 0]).to_array(), [15, 0]);
}

#[test]
fn sums_of_products() {
    let mut random = random();
    for _ in 0..TIMES {
        let (a, b) = (random.bytes::<16>(), random.bytes::<16>());
        let product = |lane| u32::from(a[lane]) * u32::from(b[lane]);
        let sums: [u32; 4] = [0, 4, 8, 12].map(|first| (first..first + 4).map(product).sum());
        let found = u8x16::from_array(a).dot4(u8x16::from_array(b));
        assert_eq!(found.to_array(), sums, "{a:?} by {b:?}");
    }
    let greatest = u8x16::splat(255).dot4(u8x16::splat(255));
    assert_eq!(greatest, u32x4::splat(4 * 255 * 255));
}

#[test]
fn wider_lanes() {
    let mut random = random();
    for _ in 0..TIMES {
        let a = random.bytes::<16>();
        let b = random.bytes_like(&a);
        let wide = |lanes: [u8; 16]| -> [u16; 8] {
            core::array::from_fn(|at| u16::from_be_bytes([lanes[2 * at], lanes[2 * at + 1]]))
        };
        let (x, y) = (wide(a), wide(b));
        let found = u16x8::from_array(x).simd_ge(u16x8::from_array(y));
        assert_eq!(
            found.to_bitmask(),
            bits(x, y, |a, b| a >= b),
            "{x:?} >= {y:?}"
        );
        let wider = |lanes: [u16; 8]| -> [u32; 4] {
            core::array::from_fn(|at| u32::from(lanes[2 * at]) << 16 | u32::from(lanes[2 * at + 1]))
        };
        let (x, y) = (wider(x), wider(y));
        let found = u32x4::from_array(x).simd_gt(u32x4::from_array(y));
        assert_eq!(
            found.to_bitmask(),
            bits(x, y, |a, b| a > b),
            "{x:?} > {y:?}"
        );
        assert_eq!(
            u32x4::from_array(x).cast::<u8>().to_array(),
            x.map(|lane| lane as u8)
        );
        let halves = [random.next(), random.next()];
        let [low, high] = halves.map(u64::to_le_bytes);
        let found = u64x2::from_array(halves).to_le_bytes().to_array();
        assert!(found[..8] == low && found[8..] == high);
    }
}

/// What is chosen for this processor, and the loops that every other one gets, make the same.
#[test]
fn instructions_and_loops() {
    let mut random = random();
    for _ in 0..TIMES {
        let a = random.bytes::<16>();
        let b = random.bytes_like(&a);
        macro_rules! same {
            ($($call:ident)*) => {$(
                let found = Sixteen::of(a).$call(Sixteen::of(b)).lanes();
                let looped = loops::Sixteen::of(a).$call(loops::Sixteen::of(b)).lanes();
                assert_eq!(found, looped, "{} of {a:?} and {b:?}", stringify!($call));
            )*};
        }
        same!(equal less plus minus and and_not or moved);
        let (x, y) = (Sixteen::of(a), Sixteen::of(b));
        let (v, w) = (loops::Sixteen::of(a), loops::Sixteen::of(b));
        assert_eq!(x.dot4(y), v.dot4(w));
        assert_eq!(x.highest_bits(), v.highest_bits());
        let (m, n) = (x.dot4(x), y.dot4(x));
        assert_eq!(super::sixteen::greater(m, n), loops::greater(m, n));
        assert_eq!(super::sixteen::low_bytes(m), loops::low_bytes(m));
    }
}

fn ascii_of<const N: usize>() {
    let mut text = [b'a'; N];
    assert_eq!(ascii(&text), str::from_utf8(&text).ok());
    for place in 0..N {
        for byte in [0, 127] {
            text[place] = byte;
            assert_eq!(ascii(&text), str::from_utf8(&text).ok());
        }
        for byte in [128, 0xc3, 255] {
            text[place] = byte;
            assert_eq!(ascii(&text), None);
        }
        text[place] = b'z';
    }
}

#[test]
fn texts_of_ascii() {
    ascii_of::<0>();
    ascii_of::<1>();
    ascii_of::<15>();
    ascii_of::<16>();
    ascii_of::<17>();
    ascii_of::<39>();
    ascii_of::<43>();
    ascii_of::<48>();
    ascii_of::<160>();
    assert_eq!(
        ascii("\u{e4}\u{f6}".as_bytes().first_chunk::<4>().unwrap()),
        None
    );
}
