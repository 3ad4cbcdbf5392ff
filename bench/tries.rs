//! Look-ups of the longest prefix in two tables of other forms, written here for this comparison: an allotment table of
//! eight bits a step, as Go's `bart` has it, with what a step has in packed lists; and a path-compressed binary trie, as
//! `pytricia` and py-radix have it. Neither is the package's own code. The routes and the addresses that are asked for
//! are those of `bench/look_ups.rt.txt`.

use std::time::Instant;

const ASKED: usize = 1_000_000;

fn main() {
    for count in [1_000, 10_000, 100_000, 900_000] {
        measure::<u32>("v4", count);
        measure::<u128>("v6", count);
    }
}

fn measure<K: Key>(family: &str, count: u32) {
    let routes = routes::<K>(count);
    let addresses = addresses::<K>(&routes);
    let mut steps = Steps::new();
    let mut paths = Paths::new();
    for (place, (address, prefix)) in routes.iter().enumerate() {
        steps.insert(*address, *prefix, place as u32);
        paths.insert(*address, *prefix, place as u32);
    }
    report(family, count, "allotment", steps.bytes(), &addresses, |address| steps.lookup(address));
    report(family, count, "paths", paths.bytes(), &addresses, |address| paths.lookup(address));
}

/// Prints the least time of several passes over the addresses.
fn report<K: Key>(family: &str, count: u32, name: &str, bytes: usize, addresses: &[K], lookup: impl Fn(K) -> Option<u32>) {
    let mut best = u128::MAX;
    let mut sum = 0;
    for _ in 0..3 {
        let start = Instant::now();
        sum = ask(addresses, &lookup);
        best = best.min(start.elapsed().as_nanos());
    }
    println!("{family} {count} {name}: {} ps a look-up, {bytes} bytes, sum {sum}", best * 1000 / ASKED as u128);
}

#[inline(never)]
fn ask<K: Key>(addresses: &[K], lookup: &impl Fn(K) -> Option<u32>) -> usize {
    let mut sum = 0usize;
    for address in addresses {
        if let Some(value) = lookup(*address) {
            sum = sum.wrapping_add(value as usize);
        }
    }
    sum
}

/// The addresses of a family.
pub trait Key: Copy + Eq + std::ops::BitXor<Output = Self> + std::ops::BitAnd<Output = Self> {
    const WIDTH: u32;

    fn route(first: u64, second: u64) -> (Self, u8);

    fn drawn(first: u64, second: u64) -> Self;

    fn random(first: u64, second: u64) -> Self;

    /// The bits that stand for hosts after this many bits.
    fn hosts(prefix: u8) -> Self;

    fn byte(self, place: usize) -> u8;

    /// How many bits two addresses begin with in common.
    fn common(self, other: Self) -> u32;

    fn bit(self, place: u32) -> usize;
}

impl Key for u32 {
    const WIDTH: u32 = 32;

    fn route(first: u64, second: u64) -> (u32, u8) {
        let prefix = match (first >> 20) % 100 {
            0..=59 => 24,
            60..=71 => 22 + (second % 2) as u8,
            72..=89 => 18 + (second % 4) as u8,
            90..=98 => 12 + (second % 6) as u8,
            _ => 25 + (second % 8) as u8,
        };
        ((second >> 32) as u32, prefix)
    }

    fn drawn(first: u64, _second: u64) -> u32 {
        (first >> 32) as u32
    }

    fn random(first: u64, _second: u64) -> u32 {
        (first >> 32) as u32
    }

    fn hosts(prefix: u8) -> u32 {
        u32::MAX.checked_shr(prefix.into()).unwrap_or(0)
    }

    fn byte(self, place: usize) -> u8 {
        self.to_be_bytes()[place]
    }

    fn common(self, other: u32) -> u32 {
        (self ^ other).leading_zeros()
    }

    fn bit(self, place: u32) -> usize {
        (self >> (31 - place) & 1) as usize
    }
}

impl Key for u128 {
    const WIDTH: u32 = 128;

    fn route(first: u64, second: u64) -> (u128, u8) {
        let prefix = if (first >> 20) % 100 < 50 { 48 } else { 20 + (second % 28) as u8 };
        (u128::drawn(first, second), prefix)
    }

    fn drawn(first: u64, second: u64) -> u128 {
        (1 << 125) ^ ((u128::from(first) << 64 ^ u128::from(second)) >> 3)
    }

    fn random(first: u64, second: u64) -> u128 {
        u128::from(second) << 64 ^ u128::from(first)
    }

    fn hosts(prefix: u8) -> u128 {
        u128::MAX.checked_shr(prefix.into()).unwrap_or(0)
    }

    fn byte(self, place: usize) -> u8 {
        self.to_be_bytes()[place]
    }

    fn common(self, other: u128) -> u32 {
        (self ^ other).leading_zeros()
    }

    fn bit(self, place: u32) -> usize {
        (self >> (127 - place) & 1) as usize
    }
}

/// A set of numbers below 64 times `N`.
#[derive(Clone, Copy)]
struct Bits<const N: usize>([u64; N]);

impl<const N: usize> Bits<N> {
    fn has(&self, number: usize) -> bool {
        self.0[number / 64] >> (number % 64) & 1 == 1
    }

    fn add(&mut self, number: usize) {
        self.0[number / 64] |= 1 << (number % 64);
    }

    /// How many of its numbers are below this one.
    fn below(&self, number: usize) -> usize {
        let mut count = (self.0[number / 64] & ((1 << (number % 64)) - 1)).count_ones();
        for word in &self.0[..number / 64] {
            count += word.count_ones();
        }
        count as usize
    }
}

/// A step of eight bits: the prefixes that end within it, each as the number 2^LENGTH plus its bits, and the steps below.
struct Step {
    prefixes: Bits<8>,
    children: Bits<4>,
    values: Vec<u32>,
    below: Vec<u32>,
}

/// An allotment table.
pub struct Steps {
    steps: Vec<Step>,
    /// For each byte the numbers of all prefixes of at most eight bits that it begins with.
    begun: Vec<Bits<8>>,
}

impl Steps {
    pub fn new() -> Steps {
        let mut begun = vec![Bits([0; 8]); 256];
        for (byte, bits) in begun.iter_mut().enumerate() {
            let mut number = 256 + byte;
            while number > 0 {
                bits.add(number);
                number /= 2;
            }
        }
        Steps { steps: vec![Steps::step()], begun }
    }

    fn step() -> Step {
        Step { prefixes: Bits([0; 8]), children: Bits([0; 4]), values: Vec::new(), below: Vec::new() }
    }

    pub fn insert<K: Key>(&mut self, address: K, prefix: u8, value: u32) {
        let depth = usize::from(prefix.saturating_sub(1) / 8);
        let length = usize::from(prefix) - 8 * depth;
        let mut at = 0;
        for place in 0..depth {
            at = self.child(at, address.byte(place).into());
        }
        let number = (1 << length) + (usize::from(address.byte(depth)) >> (8 - length));
        let step = &mut self.steps[at];
        let place = step.prefixes.below(number);
        if step.prefixes.has(number) {
            step.values[place] = value;
        } else {
            step.prefixes.add(number);
            step.values.insert(place, value);
        }
    }

    /// The step below for this byte, which is made if it is not there.
    fn child(&mut self, at: usize, byte: usize) -> usize {
        let place = self.steps[at].children.below(byte);
        if !self.steps[at].children.has(byte) {
            let made = self.steps.len();
            self.steps.push(Steps::step());
            self.steps[at].children.add(byte);
            self.steps[at].below.insert(place, made as u32);
        }
        self.steps[at].below[place] as usize
    }

    #[inline]
    pub fn lookup<K: Key>(&self, address: K) -> Option<u32> {
        let mut found = None;
        let mut step = &self.steps[0];
        for place in 0..K::WIDTH as usize / 8 {
            let byte = usize::from(address.byte(place));
            if !step.values.is_empty() {
                let begun = &self.begun[byte];
                for word in (0..8).rev() {
                    let both = step.prefixes.0[word] & begun.0[word];
                    if both != 0 {
                        let number = 64 * word + 63 - both.leading_zeros() as usize;
                        found = Some(step.values[step.prefixes.below(number)]);
                        break;
                    }
                }
            }
            if !step.children.has(byte) {
                break;
            }
            step = &self.steps[step.below[step.children.below(byte)] as usize];
        }
        found
    }

    fn bytes(&self) -> usize {
        let lists: usize = self.steps.iter().map(|step| 4 * (step.values.len() + step.below.len())).sum();
        lists + self.steps.len() * std::mem::size_of::<Step>() + self.begun.len() * 64
    }
}

/// A place of a path-compressed trie: its first bits, how many, its value, and the places for a 0 and a 1 after them.
struct Place<K> {
    address: K,
    prefix: u8,
    value: Option<u32>,
    next: [u32; 2],
}

/// A path-compressed trie. The first place is that of no bits, so that 0 stands for no place below another.
pub struct Paths<K> {
    places: Vec<Place<K>>,
}

impl<K: Key> Paths<K> {
    pub fn new() -> Paths<K> {
        let zero = K::hosts(0) ^ K::hosts(0);
        Paths { places: vec![Place { address: zero, prefix: 0, value: None, next: [0, 0] }] }
    }

    pub fn insert(&mut self, address: K, prefix: u8, value: u32) {
        let address = address & (K::hosts(0) ^ K::hosts(prefix));
        let mut at = 0usize;
        loop {
            if self.places[at].prefix == prefix {
                self.places[at].value = Some(value);
                return;
            }
            let side = address.bit(self.places[at].prefix.into());
            let next = self.places[at].next[side] as usize;
            if next == 0 {
                self.places[at].next[side] = self.push(address, prefix, Some(value));
                return;
            }
            let other = &self.places[next];
            let common = address.common(other.address).min(prefix.into()).min(other.prefix.into()) as u8;
            if common < other.prefix {
                let kept = address & (K::hosts(0) ^ K::hosts(common));
                let bit = other.address.bit(common.into());
                let made = self.push(kept, common, None);
                self.places[made as usize].next[bit] = next as u32;
                self.places[at].next[side] = made;
                at = made as usize;
            } else {
                at = next;
            }
        }
    }

    fn push(&mut self, address: K, prefix: u8, value: Option<u32>) -> u32 {
        self.places.push(Place { address, prefix, value, next: [0, 0] });
        self.places.len() as u32 - 1
    }

    #[inline]
    pub fn lookup(&self, address: K) -> Option<u32> {
        let mut found = None;
        let mut place = &self.places[0];
        loop {
            if place.value.is_some() {
                found = place.value;
            }
            if u32::from(place.prefix) == K::WIDTH {
                return found;
            }
            let next = place.next[address.bit(place.prefix.into())] as usize;
            if next == 0 {
                return found;
            }
            place = &self.places[next];
            if address.common(place.address) < place.prefix.into() {
                return found;
            }
        }
    }

    fn bytes(&self) -> usize {
        self.places.len() * std::mem::size_of::<Place<K>>()
    }
}

fn next(state: u64) -> u64 {
    let a = state ^ (state << 13);
    let b = a ^ (a >> 7);
    b ^ (b << 17)
}

pub fn routes<K: Key>(count: u32) -> Vec<(K, u8)> {
    let mut state = 88172645463325252u64;
    let mut routes = Vec::new();
    for _ in 0..count {
        let first = next(state);
        state = next(first);
        routes.push(K::route(first, state));
    }
    routes
}

fn addresses<K: Key>(routes: &[(K, u8)]) -> Vec<K> {
    let mut state = 1234567890123u64;
    let mut addresses = Vec::new();
    for _ in 0..ASKED {
        let first = next(state);
        state = next(first);
        let at = (state >> 16) as usize;
        addresses.push(if state & 1 == 1 {
            let (address, prefix) = routes[at % routes.len()];
            address ^ (K::random(first, state) & K::hosts(prefix))
        } else {
            K::drawn(first, state)
        });
    }
    addresses
}
