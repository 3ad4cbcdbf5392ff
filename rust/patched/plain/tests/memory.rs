//! Memory is asked for only by errors with a text.

use ipnetwork::{ip_mask_to_prefix, IpNetwork, IpNetworkError, Ipv4Network, Ipv6Network};
use std::alloc::{GlobalAlloc, Layout, System};
use std::cell::Cell;
use std::fmt::{self, Write};

thread_local! {
    static REQUESTS: Cell<usize> = const { Cell::new(0) };
}

struct Counted;

// SAFETY: each request is passed on as it is.
unsafe impl GlobalAlloc for Counted {
    unsafe fn alloc(&self, layout: Layout) -> *mut u8 {
        REQUESTS.set(REQUESTS.get() + 1);
        System.alloc(layout)
    }

    unsafe fn dealloc(&self, place: *mut u8, layout: Layout) {
        System.dealloc(place, layout)
    }
}

#[global_allocator]
static COUNTED: Counted = Counted;

/// How often a call asks for memory.
fn requests<T>(call: impl FnOnce() -> T) -> usize {
    let before = REQUESTS.get();
    std::hint::black_box(call());
    REQUESTS.get() - before
}

/// Counts what is written.
struct Written(usize);

impl Write for Written {
    fn write_str(&mut self, text: &str) -> fmt::Result {
        self.0 += text.len();
        Ok(())
    }
}

macro_rules! asks_for_none {
    ($network:ident, $text:literal) => {
        let mut written = Written(0);
        let count = requests(|| {
            let network: $network = $text.parse().unwrap();
            write!(written, "{network}{network:>50}{network:?}").unwrap();
            let made = $network::new(network.ip(), network.prefix());
            assert_eq!(made, Ok(network));
            assert!(network.contains(network.network()) && network.contains(network.broadcast()));
            assert!(network.iter().take(9).all(|ip| network.contains(ip)));
            assert_eq!(network.cmp(&network), std::cmp::Ordering::Equal);
            assert!($network::with_netmask(network.ip(), network.mask()).is_ok());
            assert!($network::with_netmask(network.mask(), network.ip()).is_err());
            assert!($network::new(network.ip(), 129).is_err());
            assert!(ip_mask_to_prefix(network.ip().into()).is_err());
            std::hint::black_box(network.size());
        });
        assert_eq!(count, 0, "{}", $text);
        assert!(written.0 > 50);
    };
}

#[test]
fn only_errors_with_a_text_ask_for_memory() {
    asks_for_none!(Ipv4Network, "10.1.9.32/16");
    asks_for_none!(Ipv6Network, "2001:db8::1/32");
    asks_for_none!(IpNetwork, "10.1.9.32/16");
    asks_for_none!(IpNetwork, "2001:db8::1/32");
    let past = || "10.0.0.0/33".parse::<Ipv4Network>();
    assert_eq!(past(), Err(IpNetworkError::InvalidPrefix));
    assert_eq!(requests(past), 0);
    assert_eq!(requests(|| "10/8".parse::<Ipv4Network>()), 1);
    assert_eq!(requests(|| "10/8".parse::<IpNetwork>()), 1);
}
