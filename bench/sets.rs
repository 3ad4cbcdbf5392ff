//! The calls of `bench/sets.c` on the same networks, in plain Rust over bare numbers: each network is the pair of its
//! first and last number, lists are sorted and gone over once, and the ranges are cut into the fewest blocks. With
//! `--cfg ipnet` it also aggregates the networks by the crate `ipnet`.
#![allow(unexpected_cfgs)]

const COUNT: usize = 1_000_000;

struct Random(u64);

impl Random {
    fn next(&mut self) -> u64 {
        self.0 ^= self.0 << 13;
        self.0 ^= self.0 >> 7;
        self.0 ^= self.0 << 17;
        self.0
    }
}

fn v4(random: &mut Random) -> (u32, u8) {
    let number = random.next();
    ((number >> 32) as u32, 24 + (number % 9) as u8)
}

fn v6(random: &mut Random) -> (u128, u8) {
    let high = u128::from(0x20010d << 40 | random.next() >> 24) << 64;
    let number = random.next();
    (high | u128::from(number), 48 + (number % 17) as u8)
}

macro_rules! family {
    ($module:ident, $number:ty) => {
        mod $module {
            use std::time::Instant;

            type Ranges = Vec<($number, $number)>;
            pub type Blocks = Vec<($number, u8)>;
            const WIDTH: u32 = <$number>::BITS;

            fn range(block: &($number, u8)) -> ($number, $number) {
                let hosts = <$number>::MAX.checked_shr(block.1.into()).unwrap_or(0);
                (block.0 & !hosts, block.0 | hosts)
            }

            /// The blocks of ranges in ascending order, of which those that touch are joined.
            fn blocks(ranges: impl Iterator<Item = ($number, $number)>) -> Blocks {
                let mut joined: Ranges = Vec::new();
                for (first, last) in ranges {
                    match joined.last_mut() {
                        Some(before) if before.1 == <$number>::MAX || first <= before.1 + 1 => {
                            before.1 = before.1.max(last)
                        }
                        _ => joined.push((first, last)),
                    }
                }
                let mut blocks = Vec::with_capacity(joined.len());
                for (mut first, last) in joined {
                    loop {
                        let mut bits = first.trailing_zeros();
                        while bits > 0 && <$number>::MAX >> (WIDTH - bits) > last - first {
                            bits -= 1;
                        }
                        blocks.push((first, (WIDTH - bits) as u8));
                        let end = first | <$number>::MAX.checked_shr(WIDTH - bits).unwrap_or(0);
                        if end == last {
                            break;
                        }
                        first = end + 1;
                    }
                }
                blocks
            }

            pub fn aggregate(networks: &[($number, u8)]) -> Blocks {
                let mut ranges: Ranges = networks.iter().map(range).collect();
                ranges.sort_unstable_by_key(|range| range.0);
                blocks(ranges.into_iter())
            }

            fn union(one: &Blocks, other: &Blocks) -> Blocks {
                let mut ranges: Ranges = Vec::with_capacity(one.len() + other.len());
                let (mut i, mut j) = (0, 0);
                while i < one.len() || j < other.len() {
                    if j == other.len() || i < one.len() && one[i].0 <= other[j].0 {
                        ranges.push(range(&one[i]));
                        i += 1;
                    } else {
                        ranges.push(range(&other[j]));
                        j += 1;
                    }
                }
                blocks(ranges.into_iter())
            }

            fn intersection(one: &Blocks, other: &Blocks) -> Blocks {
                let mut both = Vec::new();
                let (mut i, mut j) = (0, 0);
                while i < one.len() && j < other.len() {
                    let (a, b) = (range(&one[i]), range(&other[j]));
                    if a.0.max(b.0) <= a.1.min(b.1) {
                        both.push((a.0.max(b.0), a.1.min(b.1)));
                    }
                    if a.1 <= b.1 {
                        i += 1;
                    } else {
                        j += 1;
                    }
                }
                blocks(both.into_iter())
            }

            fn difference(one: &Blocks, other: &Blocks) -> Blocks {
                let mut left: Ranges = Vec::new();
                let mut j = 0;
                for block in one {
                    let (mut first, last) = range(block);
                    while j < other.len() && range(&other[j]).1 < first {
                        j += 1;
                    }
                    let mut at = j;
                    let mut whole = false;
                    while at < other.len() && range(&other[at]).0 <= last {
                        let cut = range(&other[at]);
                        if cut.0 > first {
                            left.push((first, cut.0 - 1));
                        }
                        if cut.1 >= last {
                            whole = true;
                            break;
                        }
                        first = cut.1 + 1;
                        at += 1;
                    }
                    if !whole {
                        left.push((first, last));
                    }
                }
                blocks(left.into_iter())
            }

            fn timed(least: &mut f64, call: impl FnOnce() -> Blocks) -> Blocks {
                let start = Instant::now();
                let blocks = call();
                *least = least.min(start.elapsed().as_secs_f64() * 1e3);
                blocks
            }

            pub fn measure(name: &str, one: &[($number, u8)], other: &[($number, u8)], runs: usize) {
                let mut least = [f64::MAX; 4];
                let mut counts = [0; 4];
                for _ in 0..runs {
                    let other = timed(&mut least[0], || aggregate(other));
                    let one = timed(&mut least[0], || aggregate(one));
                    counts[0] = one.len();
                    counts[1] = timed(&mut least[1], || union(&one, &other)).len();
                    counts[2] = timed(&mut least[2], || intersection(&one, &other)).len();
                    counts[3] = timed(&mut least[3], || difference(&one, &other)).len();
                }
                for (row, call) in ["aggregate", "union", "intersection", "difference"].iter().enumerate() {
                    println!("{name} {call} {:.3} {}", least[row], counts[row]);
                }
            }
        }
    };
}

family!(four, u32);
family!(six, u128);

#[cfg(ipnet)]
fn by_ipnet(fours: &[(u32, u8)], sixes: &[(u128, u8)], runs: usize) {
    use std::time::Instant;
    let fours: Vec<_> = fours.iter().map(|it| ipnet::Ipv4Net::new(it.0.into(), it.1).unwrap()).collect();
    let sixes: Vec<_> = sixes.iter().map(|it| ipnet::Ipv6Net::new(it.0.into(), it.1).unwrap()).collect();
    let (mut four, mut six, mut counts) = (f64::MAX, f64::MAX, (0, 0));
    for _ in 0..runs {
        let start = Instant::now();
        counts.0 = ipnet::Ipv4Net::aggregate(&fours).len();
        four = four.min(start.elapsed().as_secs_f64() * 1e3);
        let start = Instant::now();
        counts.1 = ipnet::Ipv6Net::aggregate(&sixes).len();
        six = six.min(start.elapsed().as_secs_f64() * 1e3);
    }
    println!("v4 ipnet {four:.3} {}\nv6 ipnet {six:.3} {}", counts.0, counts.1);
}

#[cfg(not(ipnet))]
fn by_ipnet(_fours: &[(u32, u8)], _sixes: &[(u128, u8)], _runs: usize) {}

fn main() {
    let runs = std::env::args().nth(1).and_then(|word| word.parse().ok()).unwrap_or(5);
    let (mut first, mut second) = (Random(1), Random(2));
    let one: Vec<_> = (0..COUNT).map(|_| v4(&mut first)).collect();
    let other: Vec<_> = (0..COUNT).map(|_| v4(&mut second)).collect();
    four::measure("v4", &one, &other, runs);
    let (mut first, mut second) = (Random(1), Random(2));
    let sixes: Vec<_> = (0..COUNT).map(|_| v6(&mut first)).collect();
    let others: Vec<_> = (0..COUNT).map(|_| v6(&mut second)).collect();
    six::measure("v6", &sixes, &others, runs);
    by_ipnet(&one, &sixes, runs.min(2));
}
