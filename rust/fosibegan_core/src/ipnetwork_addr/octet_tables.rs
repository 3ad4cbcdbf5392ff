// Written by scripts/plain out of crates/ipnetwork_addr/src/octet_tables.rt

//! Tables for IPv4 texts by the number of digits of each octet. There are 81 combinations, called
//! rows: the first has one digit in each octet, the last has three in each.

/// Returns, for a text of eight to fifteen bytes, the positions of its bytes in its first eight
/// bytes followed by its last eight.
#[inline(always)]
pub(crate) fn joined_positions(count: usize) -> &'static [u8; 16] {
    &JOINED[count - 8]
}

/// Returns the row of a text, if it is an IPv4 address, by the positions of its dots and of its end
/// as bits.
#[inline(always)]
pub(crate) fn likely_row(ends: u64) -> usize {
    row_at((ends.wrapping_mul(MULTIPLIER) >> 56) as usize)
}

/// Returns the row for these eight bits of a product.
#[inline(always)]
fn row_at(hash: usize) -> usize {
    usize::from(ROWS[hash])
}

/// Returns the length of a row's texts.
#[inline(always)]
pub(crate) fn length_of_row(row: usize) -> usize {
    usize::from(LENGTHS[row])
}

/// Returns, for each octet in a row's texts, the positions of its hundreds, tens and ones, and of
/// the byte after it, or 128 if there is none.
#[inline(always)]
pub(crate) fn positions_of_row(row: usize) -> &'static [u8; 16] {
    &PLACES[row]
}

/// Returns how far above `0` these bytes are at least: the first of several digits is not zero, and
/// there is a dot after each octet but the last.
#[inline(always)]
pub(crate) fn least_of_row(row: usize) -> &'static [u8; 16] {
    &LEAST[row]
}

/// The high eight bits of the product of `ends` and this number are different for all rows.
const MULTIPLIER: u64 = 0xe3cb_bbca_7780_e851;

/// The row for each of these products, or 0 if there is none.
static ROWS: [u8; 256] = [
    0, 0, 0, 39, 0, 0, 66, 5, 0, 47, 0, 63, 0, 0, 0, 32, 0, 0, 0, 74, 0, 54, 0, 44, 0, 13, 0, 0, 0,
    37, 0, 59, 68, 0, 77, 0, 0, 0, 11, 0, 52, 8, 0, 1, 0, 16, 0, 71, 0, 0, 40, 0, 0, 0, 24, 0, 0,
    0, 64, 21, 0, 0, 0, 80, 0, 0, 0, 0, 0, 0, 0, 0, 14, 30, 0, 0, 38, 0, 0, 26, 0, 79, 0, 35, 0,
    19, 28, 73, 0, 0, 0, 43, 0, 0, 0, 0, 0, 0, 0, 6, 67, 0, 0, 0, 0, 0, 22, 0, 51, 0, 0, 0, 4, 0,
    0, 0, 0, 0, 0, 48, 0, 0, 0, 0, 45, 0, 0, 0, 0, 12, 0, 0, 20, 36, 0, 0, 0, 0, 27, 17, 0, 60, 10,
    0, 41, 50, 57, 0, 25, 0, 0, 0, 65, 0, 0, 0, 0, 0, 0, 53, 0, 0, 0, 0, 3, 0, 62, 0, 0, 0, 76, 46,
    55, 0, 0, 0, 0, 0, 0, 0, 0, 0, 0, 70, 0, 0, 0, 0, 0, 0, 18, 0, 0, 58, 9, 0, 0, 0, 33, 0, 23, 0,
    0, 0, 0, 0, 0, 0, 0, 0, 0, 0, 0, 49, 0, 0, 0, 78, 0, 56, 0, 0, 0, 0, 31, 0, 0, 0, 0, 0, 0, 0,
    0, 0, 0, 61, 0, 29, 75, 0, 0, 0, 0, 0, 0, 34, 2, 0, 0, 72, 7, 69, 0, 42, 15, 0,
];

/// The `joined_positions` of each length from eight on.
static JOINED: [[u8; 16]; 8] = [
    [
        0, 1, 2, 3, 4, 5, 6, 7, 255, 255, 255, 255, 255, 255, 255, 255,
    ],
    [
        0, 1, 2, 3, 4, 5, 6, 7, 15, 255, 255, 255, 255, 255, 255, 255,
    ],
    [0, 1, 2, 3, 4, 5, 6, 7, 14, 15, 255, 255, 255, 255, 255, 255],
    [0, 1, 2, 3, 4, 5, 6, 7, 13, 14, 15, 255, 255, 255, 255, 255],
    [0, 1, 2, 3, 4, 5, 6, 7, 12, 13, 14, 15, 255, 255, 255, 255],
    [0, 1, 2, 3, 4, 5, 6, 7, 11, 12, 13, 14, 15, 255, 255, 255],
    [0, 1, 2, 3, 4, 5, 6, 7, 10, 11, 12, 13, 14, 15, 255, 255],
    [0, 1, 2, 3, 4, 5, 6, 7, 9, 10, 11, 12, 13, 14, 15, 255],
];

/// The list of what `$row` makes of each row's numbers of digits.
macro_rules! rows {
    ($row:ident) => {
        rows!($row: 1 1, 1 2, 1 3, 2 1, 2 2, 2 3, 3 1, 3 2, 3 3)
    };
    ($row:ident: $($first:tt $second:tt),*) => {
        [$(
            $row!($first $second 1 1), $row!($first $second 1 2), $row!($first $second 1 3),
            $row!($first $second 2 1), $row!($first $second 2 2), $row!($first $second 2 3),
            $row!($first $second 3 1), $row!($first $second 3 2), $row!($first $second 3 3),
        )*]
    };
}

/// The length of four octets with these numbers of digits, and the dots between them.
macro_rules! length {
    ($a:tt $b:tt $c:tt $d:tt) => {
        $a + $b + $c + $d + 3
    };
}

/// The position of the hundreds of an octet that begins at `$at`: 128 unless it has three digits.
macro_rules! hundreds {
    (3, $at:expr) => {
        $at
    };
    ($count:tt, $at:expr) => {
        128
    };
}

/// The position of the tens of an octet that begins at `$at`: 128 if it has one digit.
macro_rules! tens {
    (1, $at:expr) => {
        128
    };
    ($count:tt, $at:expr) => {
        $at + $count - 2
    };
}

macro_rules! positions {
    ($a:tt $b:tt $c:tt $d:tt) => {
        [
            hundreds!($a, 0), tens!($a, 0), $a - 1, $a,
            hundreds!($b, $a + 1), tens!($b, $a + 1), $a + $b, $a + $b + 1,
            hundreds!($c, $a + $b + 2), tens!($c, $a + $b + 2),
            $a + $b + $c + 1, $a + $b + $c + 2,
            hundreds!($d, $a + $b + $c + 3), tens!($d, $a + $b + $c + 3),
            $a + $b + $c + $d + 2, 128,
        ]
    };
}

/// 1 if both numbers of digits are equal, else 0.
macro_rules! one_of {
    (2 2) => {
        1
    };
    (3 3) => {
        1
    };
    ($count:tt $other:tt) => {
        0
    };
}

macro_rules! least {
    ($a:tt $b:tt $c:tt $d:tt) => {
        [
            one_of!(3 $a), one_of!(2 $a), 0, 254, one_of!(3 $b), one_of!(2 $b), 0, 254,
            one_of!(3 $c), one_of!(2 $c), 0, 254, one_of!(3 $d), one_of!(2 $d), 0, 0,
        ]
    };
}

/// The `length_of_row` of each row.
static LENGTHS: [u8; 81] = rows!(length);

/// The `positions_of_row` of each row.
static PLACES: [[u8; 16]; 81] = rows!(positions);

/// The `least_of_row` of each row.
static LEAST: [[u8; 16]; 81] = rows!(least);
