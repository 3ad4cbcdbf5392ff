//! Look-ups of the longest prefix in a table of DIR-24-8, as routers and DPDK's `rte_lpm` have it: an entry for each of
//! the 2^24 first parts of an address, and for those that longer prefixes divide, one for each of its 256 addresses.
//! The routes and the addresses that are asked for are those of `bench/look_ups.rt.txt`.

use std::time::Instant;

const ASKED: usize = 1_000_000;
const GROUP: u32 = 1 << 31;

fn main() {
    for count in [1_000, 10_000, 100_000, 900_000] {
        let networks = networks(count);
        let addresses = addresses(&networks);
        let table = Table::new(&networks);
        let mut best = u128::MAX;
        let mut sum = 0;
        for _ in 0..9 {
            let start = Instant::now();
            sum = ask(&table, &addresses);
            best = best.min(start.elapsed().as_nanos());
        }
        let bytes = 4 * (table.first.len() + table.rest.len());
        println!("{count} routes: {} ps a look-up, {bytes} bytes, sum {sum}", best * 1000 / ASKED as u128);
    }
}

#[inline(never)]
fn ask(table: &Table, addresses: &[u32]) -> usize {
    let mut sum = 0usize;
    for address in addresses {
        if let Some(value) = table.lookup(*address) {
            sum = sum.wrapping_add(value as usize);
        }
    }
    sum
}

/// An entry is 0 for no route, one more than its value, or with the highest bit the number of a group of `rest`.
struct Table {
    first: Vec<u32>,
    rest: Vec<u32>,
}

impl Table {
    fn new(networks: &[(u32, u8)]) -> Table {
        let mut routes: Vec<(u8, u32, u32)> = Vec::new();
        for (place, (address, prefix)) in networks.iter().enumerate() {
            routes.push((*prefix, *address, place as u32 + 1));
        }
        // Shorter prefixes first, and of one block the last route last.
        routes.sort_by_key(|route| route.0);
        let mut table = Table { first: vec![0; 1 << 24], rest: Vec::new() };
        for (prefix, address, entry) in routes {
            let hosts = if prefix == 0 { u32::MAX } else { u32::MAX.checked_shr(prefix.into()).unwrap_or(0) };
            let start = address & !hosts;
            if prefix <= 24 {
                let at = (start >> 8) as usize;
                table.first[at..at + (1 << (24 - prefix))].fill(entry);
            } else {
                let at = table.group((start >> 8) as usize) * 256 + (start & 255) as usize;
                table.rest[at..at + (1 << (32 - prefix))].fill(entry);
            }
        }
        table
    }

    /// The number of the group of a first part, which gets one if it has none.
    fn group(&mut self, part: usize) -> usize {
        let entry = self.first[part];
        if entry & GROUP != 0 {
            return (entry & !GROUP) as usize;
        }
        let group = self.rest.len() / 256;
        self.rest.extend([entry; 256]);
        self.first[part] = GROUP | group as u32;
        group
    }

    #[inline]
    fn lookup(&self, address: u32) -> Option<u32> {
        let mut entry = self.first[(address >> 8) as usize];
        if entry & GROUP != 0 {
            entry = self.rest[(entry & !GROUP) as usize * 256 + (address & 255) as usize];
        }
        entry.checked_sub(1)
    }
}

fn next(state: u64) -> u64 {
    let a = state ^ (state << 13);
    let b = a ^ (a >> 7);
    b ^ (b << 17)
}

fn networks(count: u32) -> Vec<(u32, u8)> {
    let mut state = 88172645463325252u64;
    let mut networks = Vec::new();
    for _ in 0..count {
        state = next(state);
        let draw = (state >> 20) % 100;
        state = next(state);
        networks.push(((state >> 32) as u32, routed(draw, state)));
    }
    networks
}

fn routed(draw: u64, state: u64) -> u8 {
    match draw {
        0..=59 => 24,
        60..=71 => 22 + (state % 2) as u8,
        72..=89 => 18 + (state % 4) as u8,
        90..=98 => 12 + (state % 6) as u8,
        _ => 25 + (state % 8) as u8,
    }
}

fn addresses(networks: &[(u32, u8)]) -> Vec<u32> {
    let mut state = 1234567890123u64;
    let mut addresses = Vec::new();
    for _ in 0..ASKED {
        state = next(state);
        let random = (state >> 32) as u32;
        state = next(state);
        let at = (state >> 16) as usize;
        let mut number = random;
        if state & 1 == 1 {
            let (address, prefix) = networks[at % networks.len()];
            let hosts = u32::MAX.checked_shr(prefix.into()).unwrap_or(0);
            number = address ^ (random & hosts);
        }
        addresses.push(number);
    }
    addresses
}
