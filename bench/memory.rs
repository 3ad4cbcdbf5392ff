//! Bytes for a network that sets, maps and their peers hold, and that they had at most while they were made: what an
//! allocator has counted. The networks are the routes of `bench/tries.rs`, which has two of the peers; of a set those of
//! its shortest list count.

use fosibegan::{AddressSetBuilder, Ipv4Network, Ipv6Network, Network, PrefixMap};
use std::alloc::{GlobalAlloc, Layout, System};
use std::collections::{BTreeMap, HashMap, HashSet};
use std::hash::Hash;
use std::sync::atomic::{AtomicUsize, Ordering::Relaxed};

#[allow(dead_code)]
#[path = "tries.rs"]
mod tries;

use tries::{Key, Paths, Steps};

/// The allocator of the system, which counts the bytes that are held, and the most of them at a time.
struct Counting;

static HELD: AtomicUsize = AtomicUsize::new(0);
static MOST: AtomicUsize = AtomicUsize::new(0);

fn add(size: usize) {
    MOST.fetch_max(HELD.fetch_add(size, Relaxed) + size, Relaxed);
}

unsafe impl GlobalAlloc for Counting {
    unsafe fn alloc(&self, layout: Layout) -> *mut u8 {
        add(layout.size());
        unsafe { System.alloc(layout) }
    }

    unsafe fn dealloc(&self, place: *mut u8, layout: Layout) {
        HELD.fetch_sub(layout.size(), Relaxed);
        unsafe { System.dealloc(place, layout) }
    }

    unsafe fn realloc(&self, place: *mut u8, layout: Layout, size: usize) -> *mut u8 {
        // For a moment there may be both.
        add(size);
        let made = unsafe { System.realloc(place, layout, size) };
        HELD.fetch_sub(layout.size(), Relaxed);
        made
    }
}

#[global_allocator]
static ALLOCATOR: Counting = Counting;

/// A family's networks, of an address and a prefix length.
trait Family: Key + Hash + Ord {
    type Network: Network;

    fn network(self, prefix: u8) -> Self::Network;

    fn first(self, prefix: u8) -> Self;
}

impl Family for u32 {
    type Network = Ipv4Network;

    fn network(self, prefix: u8) -> Ipv4Network {
        Ipv4Network::new(self.into(), prefix).unwrap()
    }

    fn first(self, prefix: u8) -> u32 {
        self & !u32::MAX.checked_shr(prefix.into()).unwrap_or(0)
    }
}

impl Family for u128 {
    type Network = Ipv6Network;

    fn network(self, prefix: u8) -> Ipv6Network {
        Ipv6Network::new(self.into(), prefix).unwrap()
    }

    fn first(self, prefix: u8) -> u128 {
        self & !u128::MAX.checked_shr(prefix.into()).unwrap_or(0)
    }
}

/// Prints for what is made here how many bytes it holds for a network, and how many there were at most.
fn print_bytes<T>(name: &str, make: impl FnOnce() -> T, count: impl FnOnce(&T) -> usize) {
    let before = HELD.load(Relaxed);
    MOST.store(before, Relaxed);
    let made = make();
    let (held, most) = (HELD.load(Relaxed) - before, MOST.load(Relaxed) - before);
    let count = count(&made) as f64;
    println!("{name}: {:.1} {:.1}", held as f64 / count, most as f64 / count);
}

fn measure<K: Family>(family: &str, count: u32)
where
    K::Network: Copy,
{
    let routes: Vec<(K, u8)> = tries::routes(count);
    let routes: HashSet<_> = routes.into_iter().map(|(address, prefix)| (address.first(prefix), prefix)).collect();
    let mut routes: Vec<_> = routes.into_iter().collect();
    // In an order that is the same in every run, and no ascending one.
    routes.sort_by_key(|(address, prefix)| (address.byte(1), address.byte(2), address.byte(0), *address, *prefix));
    let each = || routes.iter().zip(0u32..).map(|((address, prefix), value)| ((*address, *prefix), value));
    let name = |what: &str| format!("{family} {count} {what}");
    let all = routes.len();
    let builder = || {
        let mut builder = AddressSetBuilder::<K::Network>::default();
        routes.iter().for_each(|(address, prefix)| builder.insert(address.network(*prefix)));
        builder.build()
    };
    let map = || each().map(|((address, prefix), value)| (address.network(prefix), value)).collect::<PrefixMap<_, _>>();
    // Of so many routes of IPv4 a set has nearly every address.
    if count < 900_000 {
        print_bytes(&name("set"), builder, |set| set.networks().count());
        print_bytes(&name("frozen_set"), || builder().freeze(), |set| set.as_set().networks().count());
    }
    print_bytes(&name("map"), map, |_| all);
    print_bytes(&name("frozen_map"), || map().freeze(), |_| all);
    print_bytes(&name("btree_map"), || each().collect::<BTreeMap<_, _>>(), |_| all);
    print_bytes(&name("hash_map"), || each().collect::<HashMap<_, _>>(), |_| all);
    let steps = || {
        let mut steps = Steps::new();
        each().for_each(|((address, prefix), value)| steps.insert(address, prefix, value));
        steps
    };
    print_bytes(&name("allotment"), steps, |_| all);
    let paths = || {
        let mut paths = Paths::new();
        each().for_each(|((address, prefix), value)| paths.insert(address, prefix, value));
        paths
    };
    print_bytes(&name("paths"), paths, |_| all);
}

fn main() {
    for count in [10_000, 100_000, 900_000] {
        measure::<u32>("v4", count);
        measure::<u128>("v6", count);
    }
}
