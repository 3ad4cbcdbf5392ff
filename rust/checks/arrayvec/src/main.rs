//! Makes random calls of `fosibegan_core::plain_std::arrayvec` and of the crate `arrayvec`, side by side, and compares what
//! each call gives and what is kept then. A call that panics is one where both have to.
//!
//!     beside_arrayvec [SEQUENCES]
//!
//! SEQUENCES is how many sequences of calls there are for each room, 2000 where it is not given.

use std::fmt::{Debug, Write as _};
use std::panic::{catch_unwind, AssertUnwindSafe};

use fosibegan_core::plain_std::arrayvec as stand_in;

const SOURCE: &str = include_str!("../../../fosibegan_core/src/plain_std/arrayvec.rs");
/// The public calls of the stand-in, each of which is made below.
const CALLS: [&str; 14] = [
    "as_bytes",
    "as_slice",
    "as_str",
    "clear",
    "is_empty",
    "is_full",
    "len",
    "new",
    "pop",
    "push",
    "push_all",
    "push_str",
    "push_text",
    "try_push_str",
];
/// The traits that it implements, each of which is used below.
const TRAITS: [&str; 7] = [
    "AsRef<str>",
    "Deref",
    "Eq",
    "PartialEq",
    "fmt::Debug",
    "fmt::Display",
    "fmt::Write",
];
const WORDS: [&str; 12] = [
    "",
    "0",
    "1",
    "255",
    "10.0.0.0",
    "/",
    "::",
    "ffff:ffff:ffff:ffff:ffff:ffff:255.255.255.255",
    "é",
    "€",
    "😀",
    "a\0b",
];

/// Numbers by xorshift.
struct Random(u64);

impl Random {
    fn below(&mut self, bound: usize) -> usize {
        self.0 ^= self.0 << 13;
        self.0 ^= self.0 >> 7;
        self.0 ^= self.0 << 17;
        (self.0 >> 11) as usize % bound
    }

    fn word(&mut self) -> &'static str {
        WORDS[self.below(WORDS.len())]
    }

    fn char(&mut self) -> char {
        ['0', 'f', ':', '\0', '\u{7f}', 'é', '€', '😀'][self.below(8)]
    }
}

/// What a call gives, or that it panics.
fn given<T>(call: impl FnOnce() -> T) -> Option<T> {
    catch_unwind(AssertUnwindSafe(call)).ok()
}

/// How many calls were compared.
struct Compared(usize);

impl Compared {
    fn same<T: PartialEq + Debug>(&mut self, what: &str, one: T, other: T) {
        if one != other {
            eprintln!("{what}: the stand-in gives {one:?}, and arrayvec {other:?}");
            std::process::exit(1);
        }
        self.0 += 1;
    }
}

type Texts<const N: usize> = (stand_in::ArrayString<N>, arrayvec::ArrayString<N>);

/// `push_all` and `push_text`, which stand for calls of `push` and for one of `push_str`. Of characters that have no
/// room `push_all` pushes none, and the calls of `push` some, before they panic: then both texts are as before.
fn call_own<const N: usize>(random: &mut Random, both: &mut Texts<N>, compared: &mut Compared) {
    let before = *both;
    let (one, other) = both;
    let pushed = if random.below(2) == 0 {
        let chars = [random.char(), random.char(), random.char()];
        let pushed = given(|| one.push_all(chars));
        compared.same(
            "push_all",
            pushed,
            given(|| chars.iter().for_each(|char| other.push(*char))),
        );
        pushed
    } else {
        let mut text = stand_in::ArrayString::<5>::new();
        let _ = text.try_push_str(random.word());
        let pushed = given(|| one.push_text(&text));
        compared.same("push_text", pushed, given(|| other.push_str(text.as_str())));
        pushed
    };
    if pushed.is_none() {
        *both = before;
    }
}

/// One call on both texts.
fn call_text<const N: usize>(random: &mut Random, both: &mut Texts<N>, compared: &mut Compared) {
    let (one, other) = &mut *both;
    match random.below(10) {
        0 => {
            let char = random.char();
            compared.same("push", given(|| one.push(char)), given(|| other.push(char)));
        }
        1 => {
            let word = random.word();
            compared.same(
                "push_str",
                given(|| one.push_str(word)),
                given(|| other.push_str(word)),
            );
        }
        2 | 3 => {
            let word = random.word();
            let left = other.try_push_str(word).map_err(|error| error.element());
            compared.same("try_push_str", one.try_push_str(word), left);
        }
        4 => {
            let (word, number) = (random.word(), random.below(1000));
            compared.same(
                "write!",
                write!(one, "{number}{word}{number}"),
                write!(other, "{number}{word}{number}"),
            );
        }
        5 => {
            let char = random.char();
            compared.same("write_char", one.write_char(char), other.write_char(char));
        }
        6 => {
            let word = random.word();
            compared.same("write_str", one.write_str(word), other.write_str(word));
        }
        7 if random.below(4) == 0 => {
            one.clear();
            other.clear();
        }
        _ => call_own(random, both, compared),
    }
}

fn compare_texts<const N: usize>(
    (one, other): &Texts<N>,
    before: &Texts<N>,
    compared: &mut Compared,
) {
    compared.same("as_str", one.as_str(), other.as_str());
    compared.same("as_bytes", one.as_bytes(), other.as_bytes());
    compared.same("deref", &**one, &**other);
    compared.same("as_ref", one.as_ref(), AsRef::<str>::as_ref(other));
    compared.same("len", one.len(), other.len());
    compared.same("is_empty", one.is_empty(), other.is_empty());
    compared.same("Debug", format!("{one:?}"), format!("{other:?}"));
    compared.same(
        "Display",
        format!("{one}|{one:>9}|{one:.2}"),
        format!("{other}|{other:>9}|{other:.2}"),
    );
    compared.same("eq", *one == before.0, *other == before.1);
}

fn texts<const N: usize>(random: &mut Random, sequences: usize, compared: &mut Compared) {
    for _ in 0..sequences {
        let mut both: Texts<N> = (stand_in::ArrayString::new(), arrayvec::ArrayString::new());
        compare_texts(&both, &both, compared);
        for _ in 0..random.below(24) {
            let before = both;
            call_text(random, &mut both, compared);
            compare_texts(&both, &before, compared);
        }
    }
}

fn lists<T, const N: usize>(
    random: &mut Random,
    sequences: usize,
    compared: &mut Compared,
    item: impl Fn(usize) -> T,
) where
    T: Copy + Default + PartialEq + Debug,
{
    for _ in 0..sequences {
        let mut one = stand_in::ArrayVec::<T, N>::new();
        let mut other = arrayvec::ArrayVec::<T, N>::new();
        for _ in 0..random.below(2 * N + 4) {
            if random.below(3) > 0 {
                let pushed = item(random.below(usize::MAX));
                compared.same(
                    "push",
                    given(|| one.push(pushed)),
                    given(|| other.push(pushed)),
                );
            } else {
                compared.same("pop", one.pop(), other.pop());
            }
            compared.same("as_slice", one.as_slice(), other.as_slice());
            compared.same("deref", &*one, &*other);
            compared.same("is_full", one.is_full(), other.is_full());
        }
    }
}

/// The names that follow these words in the lines of the stand-in.
fn named(before: &[&str], ends: &[char]) -> Vec<&'static str> {
    let mut found: Vec<_> = SOURCE
        .lines()
        .filter_map(|line| {
            before
                .iter()
                .find_map(|word| line.trim_start().strip_prefix(word))
        })
        .filter_map(|rest| rest.split(ends).next())
        .collect();
    found.sort_unstable();
    found.dedup();
    found
}

fn main() {
    let sequences = std::env::args()
        .nth(1)
        .map_or(2000, |word| word.parse().expect("a number of sequences"));
    assert_eq!(
        named(&["pub fn ", "pub const fn "], &['(', '<']),
        CALLS,
        "a call of the stand-in is not compared"
    );
    let traits = named(
        &["impl<const N: usize> ", "impl<T, const N: usize> "],
        &[' '],
    );
    let traits: Vec<_> = traits
        .into_iter()
        .filter(|name| !name.starts_with("Array"))
        .collect();
    assert_eq!(traits, TRAITS, "a trait of the stand-in is not compared");
    std::panic::set_hook(Box::new(|_| ()));
    let random = &mut Random(0x2545_f491_4f6c_dd1d);
    let compared = &mut Compared(0);
    texts::<0>(random, sequences, compared);
    texts::<1>(random, sequences, compared);
    texts::<3>(random, sequences, compared);
    texts::<15>(random, sequences, compared);
    texts::<18>(random, sequences, compared);
    texts::<43>(random, sequences, compared);
    texts::<64>(random, sequences, compared);
    lists::<u8, 0>(random, sequences, compared, |number| number as u8);
    lists::<u8, 1>(random, sequences, compared, |number| number as u8);
    lists::<u64, 33>(random, sequences, compared, |number| number as u64);
    lists::<(u32, u8), 7>(random, sequences, compared, |number| {
        (number as u32, number as u8)
    });
    println!("{} answers compared, none differs", compared.0);
}
