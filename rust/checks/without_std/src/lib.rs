//! Has what std has once in each program: the handler of panics, and the allocator. Were std linked below, the handler
//! would be a second one, which rustc refuses.
#![no_std]

use core::alloc::{GlobalAlloc, Layout};
use core::net::Ipv4Addr;
use core::slice;

use fosibegan_core::ipnetwork_index::AddressIndex;
use fosibegan_core::plain_std::alloc::Global;
use fosibegan_core::plain_std::vec::Vec;
use fosibegan_core::{AddressSet, IpNetwork, Ipv4Network, PrefixTable};

#[panic_handler]
fn panic(_: &core::panic::PanicInfo<'_>) -> ! {
    loop {}
}

struct Refusing;

// SAFETY: it gives no memory, as an allocator may, and so gets none back.
unsafe impl GlobalAlloc for Refusing {
    unsafe fn alloc(&self, _: Layout) -> *mut u8 {
        core::ptr::null_mut()
    }

    unsafe fn dealloc(&self, _: *mut u8, _: Layout) {}
}

#[global_allocator]
static REFUSING: Refusing = Refusing;

/// Reads a network, and asks a table, a set and an index about it.
#[no_mangle]
pub extern "C" fn without_std(byte: &u8, network: &Ipv4Network) -> u8 {
    let read = IpNetwork::read_bytes(slice::from_ref(byte)).map_or(0, |network| network.prefix());
    let mut table = PrefixTable::new(Global);
    let kept = table.insert(*network, read).is_ok();
    let found = table.lookup(network.ip()).is_some();
    let set = AddressSet::from_networks(Vec::new(Global));
    let indexed = AddressIndex::<Ipv4Network>::from_set(Global, &set).is_ok();
    u8::from(kept) + u8::from(found) + u8::from(indexed)
}

/// Asks a set and a map of the library over the addresses of core.
#[no_mangle]
pub extern "C" fn without_std_either(number: u32) -> bool {
    let addr = Ipv4Addr::from(number);
    let network = fosibegan::IpNetwork::from(addr);
    let set: fosibegan::AddressSet = [network].into_iter().collect();
    let mut map = fosibegan::PrefixMap::new();
    map.insert(network, number);
    set.contains(addr.into()) && map.longest_match(addr.into()).is_some()
}
